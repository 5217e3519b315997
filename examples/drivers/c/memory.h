/* The memory that the collector works on: tagged words in regions, each region of one area and one level; and the
   remembered sets, which know what refers to a level from outside it. */
#ifndef MEMORY_H
#define MEMORY_H

#include "heap.h"

enum { REGION_WORDS = 4096, PAGE_WORDS = 256, LEVEL_COUNT = MOST_LEVELS + 1 };

/* A header is the code times this, plus the number of the fields after it. */
enum { LENGTHS = MOST_FIELDS + 1 };

/* Addresses count words from the beginning of the memory. */
typedef uint32_t address;

enum tag {
    NOTHING,                                    /* of unused words, and of the old words of a grown block */
    NIL_WORD,
    NUMBER_WORD,
    CONS_WORD,                                  /* the address of a cons */
    BLOCK_WORD,                                 /* the address of a block's header */
    HEADER,                                     /* of a block: its fields are the words after it */
    FORWARD                                     /* the object has gone on to another address */
};

/* What follows the car in a word.  A cons is a cell, the car alone, or a pair of a car and a cdr. */
enum cdr_code {
    NEXT,                                       /* a cell; its cdr is the cons at the next address */
    LAST,                                       /* a cell; its cdr is nil */
    PAIR,                                       /* the first word of a pair; the cdr is the next word */
    SECOND                                      /* the second word of a pair that is charged 2, and not 3 */
};

struct word {
    uint8_t tag, cdr_code;
    uint8_t remembered;                         /* in the sets of these levels, as bits */
    uint32_t bits;                              /* a number, an address, or a header */
};

struct region {
    enum { FREE, LIVE, OLD } state;
    uint32_t area, level;
    uint32_t used, scanned;                     /* words; what is below `scanned` needs no scan */
};

struct slots {
    address *list;
    uint32_t count, room;
};

/* What an area is charged: for its objects by level, for husks by level, and for what is condemned. */
struct account {
    uint32_t objects[LEVEL_COUNT], husks[LEVEL_COUNT], condemned;
};

extern struct word *memory;
extern struct region regions[MOST_REGIONS + MOST_AREAS];      /* those of the nursery are the last */
extern struct account accounts[MOST_AREAS];
extern struct slots remembered[LEVEL_COUNT];

struct region *region_of(address at);
bool is_old(address at);

/* Words for a new object, after the last one of its area and level. */
address place(uint32_t area, uint32_t level, uint32_t count);
void close_chain(uint32_t area, uint32_t level);

/* The place of an object that was known by this address; and what is there: a block, a pair or a cell. */
address final_address(address at);
bool is_block(address at);
bool is_pair(address at);
uint32_t block_length(address block);
uint32_t charge_at(address at);

struct value value_of(struct word word);
void write_word(address at, struct value value, enum cdr_code code);
void forward(address from, address to);

void add_slot(struct slots *slots, address at);
void remember(address at);

#endif
