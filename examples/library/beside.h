/* The collector of examples/drivers/c as a library: it answers commands in the calling process, and begins again with
   another world. One world at a time. */
#ifndef BESIDE_H
#define BESIDE_H

#include <stddef.h>

/* What was answered. It stays valid until the next call. */
struct answer {
    const char *text;
    size_t length;
};

/* Frees all objects, and reads a world: its lines up to and with `trace`, each with its line feed. The status is 0 and the
   answer is empty, or it is that of the driver, with the error line as the answer. After a status other than 0 only
   beside_open and beside_close may be called. */
int beside_open(const char *world, size_t length, struct answer *answer);

/* Answers a command: its text without the line feed. The same statuses. */
int beside_command(const char *text, size_t length, struct answer *answer);

/* Frees everything. */
void beside_close(void);

#endif
