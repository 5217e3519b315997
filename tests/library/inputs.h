/* What the tests in C share: checks that are counted, and inputs. */
#ifndef INPUTS_H
#define INPUTS_H

#include <lispm.h>
#include <stdio.h>
#include <stdlib.h>
#include <string.h>

static int failures;

/* Says what doesn't hold, and goes on. */
#define CHECK(holds) ((holds) ? (void)0 : (void)(failures++, printf("%s:%d: not so: %s\n", __FILE__, __LINE__, #holds)))

enum { ROOM = 1 << 16 };

static const char *const WORLD[] = {"lispm-world 1", "space 16 32 8 1 2", "area work dynamic 900", "trace"};
enum { WORLD_LINES = sizeof WORLD / sizeof WORLD[0] };

/* Reads a line, with all the room that it needs. */
static inline uint8_t say(lispm_seat *seat, const char *text, char *output, size_t *needed)
{
    return lispm_line(seat, text, strlen(text), output, ROOM, needed);
}

/* The answer is this text. */
static inline bool is_answer(const char *output, size_t needed, const char *text)
{
    return needed == strlen(text) && memcmp(output, text, needed) == 0;
}

/* A line is answered with this status and this text. */
static inline bool answers(lispm_seat *seat, const char *line, uint8_t status, const char *text)
{
    static _Thread_local char output[ROOM];
    size_t needed = 77;
    uint8_t found = say(seat, line, output, &needed);

    if (found == status && is_answer(output, needed, text))
        return true;
    printf("%s: status %d, %.*s", line, found, found == LISPM_SMALL ? 0 : (int)needed, output);
    return false;
}

/* A seat with a session that has read the lines of the world. */
static inline lispm_seat opened(void)
{
    lispm_seat seat = {0};

    CHECK(lispm_open(&seat) == LISPM_DONE && seat.full);
    for (size_t at = 0; at < WORLD_LINES; at++)
        CHECK(answers(&seat, WORLD[at], LISPM_DONE, ""));
    return seat;
}

static inline int ended(void)
{
    return failures == 0 ? 0 : 1;
}

#endif
