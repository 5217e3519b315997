/* The machine and a collector on one input: each line is answered by both, and their replies are compared. */
#ifndef BOTH_H
#define BOTH_H

#include <stdbool.h>
#include <stddef.h>

/* What of a reply is fixed. The rest of it is a collector's own choice, see docs/ADAPTER.md. */
enum fixed {
    ALL,                                        /* each byte */
    FIRST_WORD,                                 /* `flipped P`, `stats` while charges are free */
    NOTHING                                     /* `more` or `done` */
};

/* Opens both with a world, which is whole: its lines, each with its line feed, and `trace` the last. */
void both_open(const char *world);

/* Has both answer a command. Answers the machine's reply, valid until the next call. If what is fixed differs, writes the
   session on standard error and ends the process by abort, as a fuzzer wants it. */
const char *both_answer(enum fixed fixed, const char *format, ...) __attribute__((format(printf, 2, 3)));

/* Ends the input, and forgets it. */
void both_close(void);

/* Writes the lines so far, and `end`, on a file of the system (1 or 2). A signal handler may call it. */
void both_show(int file);

#endif
