/* The harness without a fuzzer:

   alone FILE ..         runs each file's bytes
   alone --show FILE     runs them, and writes the session that they are, also if it ends by a signal
   alone --random N S    runs N random byte strings, the same for the same number S */
#include "both.h"

#include <signal.h>
#include <stdint.h>
#include <stdio.h>
#include <stdlib.h>
#include <string.h>
#include <unistd.h>

enum { MOST = 1 << 16, LONGEST = 400, SECONDS = 10 };

int LLVMFuzzerTestOneInput(const uint8_t *data, size_t size);

static uint8_t data[MOST];

static void run_file(const char *path)
{
    FILE *file = fopen(path, "rb");
    size_t size;

    if (file == NULL) {
        perror(path);
        exit(2);
    }
    size = fread(data, 1, sizeof data, file);
    fclose(file);
    LLVMFuzzerTestOneInput(data, size);
}

/* The collector crashed, hangs, or gave another reply. */
static void ended_by(int number)
{
    (void)number;
    both_show(1);
    _exit(1);
}

static void show_file(const char *path)
{
    static const int signals[] = {SIGABRT, SIGSEGV, SIGBUS, SIGFPE, SIGILL, SIGALRM};

    for (size_t at = 0; at < sizeof signals / sizeof signals[0]; at++)
        signal(signals[at], ended_by);
    alarm(SECONDS);
    run_file(path);
    both_show(1);
}

static uint32_t random_number(uint64_t *state)
{
    *state = *state * 6364136223846793005u + 1442695040888963407u;
    return (uint32_t)(*state >> 33);
}

static void run_random(long count, uint64_t state)
{
    for (long at = 0; at < count; at++) {
        size_t size = random_number(&state) % LONGEST;

        for (size_t byte = 0; byte < size; byte++)
            data[byte] = (uint8_t)random_number(&state);
        LLVMFuzzerTestOneInput(data, size);
    }
    printf("%ld byte strings, and no reply differs\n", count);
}

int main(int count, char **words)
{
    if (count == 4 && strcmp(words[1], "--random") == 0) {
        run_random(atol(words[2]), strtoul(words[3], NULL, 10));
    } else if (count == 3 && strcmp(words[1], "--show") == 0) {
        show_file(words[2]);
    } else if (count > 1 && words[1][0] != '-') {
        for (int at = 1; at < count; at++)
            run_file(words[at]);
    } else {
        fputs("alone: alone FILE .. | --show FILE | --random N S\n", stderr);
        return 2;
    }
    return 0;
}
