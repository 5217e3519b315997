/* stack session|main PROGRAM-ARGUMENT.. <INPUT  runs an input on a thread whose stack was filled with a pattern before, and
   prints how many bytes of it the calls of the library changed. */
#define _GNU_SOURCE
#include "inputs.h"

#include <pthread.h>
#include <sys/mman.h>

enum { STACK = 1 << 23, PATTERN = 0xa5 };

static char input[1 << 24], arguments[1 << 12], output[1 << 24];
static size_t length, arguments_length;
static bool is_session;

static void feed(void)
{
    lispm_seat seat = {0};
    size_t needed, at = 0;

    lispm_open(&seat);
    while (at < length) {
        size_t line = (size_t)((char *)memchr(input + at, '\n', length - at) - (input + at));

        lispm_line(&seat, input + at, line, output, sizeof output, &needed);
        at += line + 1;
    }
    lispm_end(&seat, output, sizeof output, &needed);
    lispm_close(&seat);
}

/* The thread does nothing but the calls: what it needs by itself is counted too, some hundred bytes. */
static void *run(void *given)
{
    size_t needed;

    if (is_session)
        feed();
    else
        lispm_main(arguments, arguments_length, input, length, output, sizeof output, &needed);
    return given;
}

static void *idle(void *given)
{
    return given;
}

/* The bytes of a stack that a thread changed. */
static size_t used_by(void *(*body)(void *))
{
    unsigned char *stack = mmap(NULL, STACK, PROT_READ | PROT_WRITE, MAP_PRIVATE | MAP_ANONYMOUS, -1, 0);
    pthread_attr_t attributes;
    pthread_t thread;
    size_t at = 0;

    memset(stack, PATTERN, STACK);
    pthread_attr_init(&attributes);
    pthread_attr_setstack(&attributes, stack, STACK);
    if (pthread_create(&thread, &attributes, body, NULL) != 0 || pthread_join(thread, NULL) != 0)
        exit(70);
    while (at < STACK && stack[at] == PATTERN)
        at++;
    munmap(stack, STACK);
    return STACK - at;
}

int main(int count, char **words)
{
    length = fread(input, 1, sizeof input, stdin);
    if (count < 2 || lispm_arguments(count - 2, (const char *const *)words + 2, arguments, sizeof arguments, &arguments_length) != LISPM_DONE)
        return 70;
    is_session = strcmp(words[1], "session") == 0;
    printf("%zu\n", used_by(run) - used_by(idle));
    return ended();
}
