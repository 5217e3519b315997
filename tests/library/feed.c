/* feed ROOM <INPUT  answers an input line by line through a session, and writes the answers. Each answer is fetched with a
   room of ROOM bytes, and once more if that is too little. Checks that each line's answer is the answer to that line: none
   for lines of the world and for `end`, a line for each other command, and of `stats` and `dump` whole lines. */
#include "inputs.h"

static char *answer;
static size_t room, needed;
static bool is_trace;

static uint8_t fetched(lispm_seat *seat, uint8_t status)
{
    if (status != LISPM_SMALL)
        return status;
    CHECK(needed > room);
    answer = realloc(answer, room = needed);
    return answer == NULL ? LISPM_NO_MEMORY : lispm_again(seat, answer, room, &needed);
}

static bool begins(const char *text, size_t length, const char *word)
{
    size_t size = strlen(word);

    return length >= size && memcmp(text, word, size) == 0 && (length == size || text[size] == ' ');
}

static size_t feeds(void)
{
    size_t count = 0;

    for (size_t at = 0; at < needed; at++)
        count += answer[at] == '\n';
    return count;
}

static void check_answer(const char *text, size_t length)
{
    CHECK(needed == 0 || answer[needed - 1] == '\n');
    if (!is_trace || begins(text, length, "end"))
        CHECK(needed == 0);
    else if (!begins(text, length, "stats") && !begins(text, length, "dump"))
        CHECK(feeds() == 1);
    else
        CHECK(feeds() >= 1);
    if (!is_trace)
        is_trace = begins(text, length, "trace");
}

static uint8_t run(lispm_seat *seat, const char *input, size_t length)
{
    uint8_t status = LISPM_DONE;

    for (size_t at = 0; at < length && status == LISPM_DONE;) {
        const char *feed = memchr(input + at, '\n', length - at);
        size_t line = feed == NULL ? length - at : (size_t)(feed - (input + at));

        status = fetched(seat, lispm_line(seat, input + at, line, answer, room, &needed));
        if (status == LISPM_DONE)
            check_answer(input + at, line);
        fwrite(answer, 1, needed, stdout);
        at += line + 1;
    }
    if (status == LISPM_DONE) {
        status = fetched(seat, lispm_end(seat, answer, room, &needed));
        fwrite(answer, 1, needed, stdout);
    }
    return status;
}

static char *read_all(size_t *length)
{
    size_t size = 1 << 20, count;
    char *text = malloc(size);

    *length = 0;
    while (text != NULL && (count = fread(text + *length, 1, size - *length, stdin)) > 0)
        if ((*length += count) == size)
            text = realloc(text, size *= 2);
    if (text == NULL)
        exit(70);
    return text;
}

int main(int count, char **words)
{
    lispm_seat seat = {0};
    size_t length;
    char *input = read_all(&length);
    uint8_t status;

    room = count > 1 ? strtoul(words[1], NULL, 10) : ROOM;
    answer = malloc(room + 1);
    if (answer == NULL || lispm_open(&seat) != LISPM_DONE)
        return LISPM_NO_MEMORY;
    status = run(&seat, input, length);
    lispm_close(&seat);
    free(answer);
    free(input);
    return failures == 0 ? status : 99;
}
