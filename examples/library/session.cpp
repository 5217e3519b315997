// A session in C++: a class that owns its seat, and answers lines as strings.
#include <lispm.h>

#include <cstdio>
#include <iostream>
#include <new>
#include <stdexcept>
#include <string>

class Session {
public:
    Session() {
        if (lispm_open(&seat) == LISPM_NO_MEMORY)
            throw std::bad_alloc();
    }
    ~Session() { lispm_close(&seat); }
    Session(const Session &) = delete;                  // a seat is never copied
    Session &operator=(const Session &) = delete;

    // The answer to a line; throws the error line if it is refused.
    std::string line(const std::string &text) {
        return kept(lispm_line(&seat, text.data(), text.size(), &output[0], output.size(), &needed));
    }

    // Ends the input; throws if the input isn't complete.
    void end() { kept(lispm_end(&seat, &output[0], output.size(), &needed)); }

private:
    std::string kept(uint8_t status) {
        if (status == LISPM_SMALL) {
            output.resize(needed);
            status = lispm_again(&seat, &output[0], output.size(), &needed);
        }
        std::string answer = output.substr(0, needed);
        if (status != LISPM_DONE)
            throw std::runtime_error(answer.empty() ? "status " + std::to_string(status) : answer);
        return answer;
    }

    lispm_seat seat = lispm_seat();
    std::string output = std::string(80, ' ');
    size_t needed = 0;
};

int main() {
    try {
        Session session;
        for (std::string text; std::getline(std::cin, text);)
            std::cout << session.line(text);
        session.end();
        return LISPM_DONE;
    } catch (const std::runtime_error &error) {
        std::cout << error.what();
        return LISPM_REFUSED;
    }
}
