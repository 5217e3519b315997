/* The commands of a trace: the name of each, what follows the name, and the function that runs it. */
#ifndef COMMANDS_H
#define COMMANDS_H

#include "heap.h"

struct command {
    uint32_t number[4];                         /* registers, areas, codes, lengths, counts in their order */
    struct value value;                         /* of `set` */
    uint32_t levels;                            /* of `flip` */
    uint32_t items[MOST_ITEMS];                 /* the registers of `list` */
    uint32_t item_count;
};

/* Kinds of words: R register, A area, C code, L length, N number, V value, F levels, * registers up to the end. */
struct command_form {
    const char *word, *kinds;
    void (*run)(const struct command *command);
};
extern const struct command_form command_forms[];       /* the last one has no word */

#endif
