/* Lines, their words, and what a word spells.  A word that spells nothing of its kind ends the run with the line
   `error line N: REASON`, and so does each other rule that an input breaks; the replies before it have been written. */
#ifndef LINES_H
#define LINES_H

#include "heap.h"

#include <stdnoreturn.h>

enum { LONGEST_LINE = 32768 };
enum { REFUSED = 2, NO_ROOM = 4 };              /* statuses */

struct line {
    char text[LONGEST_LINE + 1];
    uint32_t length;
    unsigned long number;
};

/* The line that was read, and its words, which are pieces of it. */
extern struct line line;
extern char *words[LONGEST_LINE / 2 + 2];
extern uint32_t word_count;

noreturn void refuse(int status, const char *format, ...);

/* read_line answers false if there isn't one more line; line.number is then the number that it would have.
   next_line wants one, well formed, and splits it. */
bool read_line(void);
void next_line(void);
bool is_line_of(const char *word);
void want_words(bool right_count);

/* A value of a world may be `#k`, the object of that number, which may be defined later. */
struct part {
    struct value value;
    bool is_object;
    uint32_t object;
};

uint32_t number_in(const char *word, uint32_t low, uint32_t high);
uint32_t register_in(const char *word);
uint32_t area_in(const char *word);
struct part part_in(const char *word);

bool is_name(const char *word);
bool is_area(const char *name, uint32_t *area);

#endif
