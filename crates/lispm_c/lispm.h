/* lispm.h: the proved machine, linked into a C or C++ program.
 *
 * There are two ways to use it. A session answers an input line by line, as `lispm replay` does over a pipe: lispm_open,
 * lispm_line for each line, lispm_end, lispm_close. Or one call answers everything at once: lispm_main does what the
 * program `lispm` does with its arguments, and lispm_inside what the program `lispm_inside` does. Both write, byte for byte,
 * what the programs write on standard output. The formats are those of docs/FORMATS.md.
 *
 * All lengths, rooms and counts are in bytes. Texts need no NUL byte at their end, and none is written.
 *
 * What the caller must ensure, which nothing checks:
 *   - `seat` and `needed` are not null. Each other pointer may be null if its length or room is 0; else it points to as many
 *     bytes as its length or room says, which the caller owns during the call and no other thread changes.
 *   - `output` and `*needed` overlap neither each other nor anything else that is passed.
 *   - A seat begins as zeroed memory (`lispm_seat seat = {0};`), isn't copied or moved, and is changed by these calls alone.
 *   - At most one call at a time uses a seat. Two seats may be used on two threads at the same time. No call is made in a
 *     signal handler, or in a child that was forked from a process with threads.
 *   - malloc, realloc and free belong to one allocator, which may be called on each thread that calls the library, and which
 *     aligns a block to each power of two up to 16 that divides the size of the block.
 *   - The stack has room: docs/LIBRARY.md says how much a call needs.
 *
 * What is proved, and what is not, is in crates/lispm_c/README.md. */
#ifndef LISPM_H
#define LISPM_H

#include <stdbool.h>
#include <stddef.h>
#include <stdint.h>
#include <string.h>

/* The version of this header; lispm_version() is that of the library. major * 1000000 + minor * 1000 + patch. */
#define LISPM_VERSION 4000

/* The most bytes that the text of a line may have; a longer one is refused with `line too long`. */
#define LISPM_LONGEST_LINE 32768

/* Statuses. 0 to 8 are the program's; 9 and more mean that nothing was done, except that LISPM_SMALL follows a call that
 * was carried out. The functions return them as uint8_t. */
enum {
    LISPM_DONE = 0,         /* everything so far was answered; of lispm_end and lispm_main: the whole input */
    LISPM_REFUSED = 2,      /* the answer is `error line N: REASON`: a line was refused, or the input ended too early */
    LISPM_NO_SPACE = 4,     /* the answer is `error line N: ..`: no room for an area, or an object exceeds its quota */
    LISPM_NO_MEMORY = 5,    /* malloc failed; the answer is `error: no memory`, or is empty if there was no memory for it */
    LISPM_SWAP_FAILED = 6,  /* lispm_inside with `--fail` alone: the page call failed while objects were loaded */
    LISPM_USAGE = 7,        /* the answer is `error: usage`: the arguments were refused */
    LISPM_NO_OBJECT = 8,    /* lispm_main with `why` alone: the file has no object K */
    LISPM_EMPTY = 9,        /* the seat has no session: it was never opened, or was closed */
    LISPM_SMALL = 10,       /* `output` has no room for the `*needed` bytes of the answer; nothing was written */
    LISPM_FEED = 11,        /* the text has a line feed; nothing was done, and the session may go on */
    LISPM_ENDED = 12        /* a line, or a second lispm_end, after an lispm_end that returned LISPM_DONE */
};

/* A place for one session. Zeroed memory is an empty seat. */
typedef struct lispm_seat {
    bool full;              /* read it if you like: there is a session here */
    void *at;               /* the library's own */
} lispm_seat;

/* ------------------------------------------------------------------ what the library exports
 *
 * The functions after these are what a C program calls. They differ in one thing: here no pointer may be null, also with
 * length or room 0. A binding for another language calls these, and passes the address of some byte in place of null. */
#ifdef __cplusplus
extern "C" {
#endif
uint8_t lispm_raw_open(lispm_seat *seat);
uint8_t lispm_raw_line(lispm_seat *seat, const void *text, size_t length, void *output, size_t room, size_t *needed);
uint8_t lispm_raw_again(lispm_seat *seat, void *output, size_t room, size_t *needed);
uint8_t lispm_raw_end(lispm_seat *seat, void *output, size_t room, size_t *needed);
void lispm_raw_close(lispm_seat *seat);
uint8_t lispm_raw_main(const void *arguments, size_t arguments_length, const void *input, size_t length, void *output,
                       size_t room, size_t *needed);
uint8_t lispm_raw_inside(const void *arguments, size_t arguments_length, const void *input, size_t length, void *output,
                         size_t room, size_t *needed);
uint32_t lispm_raw_version(void);
#ifdef __cplusplus
}
#endif

/* The address of a byte, in place of a null pointer. Nothing is read or written there. */
static inline void *lispm_some_byte(void)
{
    static uint8_t byte;
    return &byte;
}

/* ------------------------------------------------------------------ a session */

/* Opens a session, which has read no line yet. A session that the seat had before is closed.
 * Returns LISPM_DONE, or LISPM_NO_MEMORY and the seat is empty.
 * It takes the memory of the session's buffers. */
static inline uint8_t lispm_open(lispm_seat *seat)
{
    return lispm_raw_open(seat);
}

/* Reads one more line of the input: `text` without its line feed. Writes its answer, which is what `lispm replay` writes
 * for this line: nothing for a line of the world and for `end`, the reply to a command, or the line of an error.
 * `*needed` is the length of the answer. If that is more than `room`, nothing is written and the status is LISPM_SMALL;
 * the line has been read all the same, and lispm_again gives its answer.
 *
 * Returns LISPM_DONE if the line was answered. LISPM_REFUSED, LISPM_NO_SPACE and LISPM_NO_MEMORY stop the session: from
 * then on each line and lispm_end return this same status and an empty answer. LISPM_FEED, LISPM_EMPTY and LISPM_ENDED:
 * nothing was done, and `*needed` is 0.
 * Lines up to the one that ends the world (`trace`) may take memory. After it only `dump` does. */
static inline uint8_t lispm_line(lispm_seat *seat, const void *text, size_t length, void *output, size_t room,
                                 size_t *needed)
{
    return lispm_raw_line(seat, length > 0 ? text : lispm_some_byte(), length, room > 0 ? output : lispm_some_byte(), room,
                          needed);
}

/* Gives the answer of the latest lispm_line or lispm_end once more, with the status of that call; LISPM_SMALL if `room` is
 * too small this time too. It may be called any number of times, and changes nothing. */
static inline uint8_t lispm_again(lispm_seat *seat, void *output, size_t room, size_t *needed)
{
    return lispm_raw_again(seat, room > 0 ? output : lispm_some_byte(), room, needed);
}

/* Ends the input after the lines so far. The answer is empty if the last line was `end`, and the error line of an input
 * that ends too early if not. Returns LISPM_DONE, LISPM_REFUSED, LISPM_SMALL, or the status that stopped the session. After
 * LISPM_DONE a further line or lispm_end returns LISPM_ENDED; then the session can only be closed, or the seat opened again. */
static inline uint8_t lispm_end(lispm_seat *seat, void *output, size_t room, size_t *needed)
{
    return lispm_raw_end(seat, room > 0 ? output : lispm_some_byte(), room, needed);
}

/* Closes the session and frees its memory. The seat is empty then; closing an empty seat does nothing. */
static inline void lispm_close(lispm_seat *seat)
{
    lispm_raw_close(seat);
}

/* ------------------------------------------------------------------ everything at once */

/* Writes what follows the program's name on a command line as lispm_main reads it: each argument, and a NUL byte after it.
 * `count` and `values` are like argc - 1 and argv + 1 of main. `*needed` is the length of it all. Returns LISPM_DONE, or
 * LISPM_SMALL if that is more than `room`, and nothing is written. */
static inline uint8_t lispm_arguments(int count, const char *const *values, char *bytes, size_t room, size_t *needed)
{
    int i;
    *needed = 0;
    for (i = 0; i < count; i++)
        *needed += strlen(values[i]) + 1;
    if (*needed > room)
        return LISPM_SMALL;
    for (i = 0; i < count; i++) {
        size_t length = strlen(values[i]) + 1;
        memcpy(bytes, values[i], length);
        bytes += length;
    }
    return LISPM_DONE;
}

/* Does what the program `lispm` does with these arguments, and `input` as its standard input: "replay\0", or
 * "why\0--object\0007\0" (see lispm_arguments). `*needed` is the length of what it writes on standard output.
 *
 * Returns the status of the program. LISPM_SMALL: that length is more than `room`; nothing was written, and another call
 * with the same input and more room does the work again. LISPM_USAGE also if the arguments aren't UTF-8, or if the last
 * one has no NUL byte. LISPM_NO_MEMORY also if there was no memory to keep the output in. */
static inline uint8_t lispm_main(const void *arguments, size_t arguments_length, const void *input, size_t length,
                                 void *output, size_t room, size_t *needed)
{
    return lispm_raw_main(arguments_length > 0 ? arguments : lispm_some_byte(), arguments_length,
                          length > 0 ? input : lispm_some_byte(), length, room > 0 ? output : lispm_some_byte(), room,
                          needed);
}

/* The same for the program `lispm_inside`, whose arguments are none or `--fail N`. */
static inline uint8_t lispm_inside(const void *arguments, size_t arguments_length, const void *input, size_t length,
                                   void *output, size_t room, size_t *needed)
{
    return lispm_raw_inside(arguments_length > 0 ? arguments : lispm_some_byte(), arguments_length,
                            length > 0 ? input : lispm_some_byte(), length, room > 0 ? output : lispm_some_byte(), room,
                            needed);
}

/* The version of the library: major * 1000000 + minor * 1000 + patch. */
static inline uint32_t lispm_version(void)
{
    return lispm_raw_version();
}

#endif
