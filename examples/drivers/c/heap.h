/* What the driver requires of a runtime.  The files that read an input, run its commands and write dumps call these
   functions and nothing else: to replace this runtime by your own, write them again, as ../boehm does. */
#ifndef HEAP_H
#define HEAP_H

#include <stdbool.h>
#include <stdint.h>

enum {
    MOST_AREAS = 16,
    MOST_LEVELS = 6,
    MOST_REGIONS = 1024,
    MOST_REGISTERS = 256,
    MOST_FIELDS = 2047,
    MOST_ITEMS = 1024,
    NAME_LENGTH = 16
};

enum area_kind { STATIC, DYNAMIC, EPHEMERAL };

struct area {
    char name[NAME_LENGTH + 1];
    enum area_kind kind;
    uint32_t quota;                             /* in words, as all charges are */
};

struct world {
    uint32_t format, regions, frames, registers, levels, rate;
    uint32_t area_count;
    struct area areas[MOST_AREAS];
    uint32_t capacity[MOST_LEVELS + 1];         /* by level, from 1 on; 0 is never */
};

enum value_kind { NIL, NUMBER, CONS, BLOCK };

struct value {
    enum value_kind kind;
    union {
        int32_t number;
        uintptr_t object;                       /* whatever the runtime finds an object by */
    };
};

extern struct world world;
extern struct value registers[MOST_REGISTERS];  /* the roots */

/* heap_open is called when the world's areas are known, heap_loaded when all its objects have been made and before the
   first command.  An object that is made before heap_loaded is at level 0, a later one of an ephemeral area at level 1. */
void heap_open(void);
void heap_loaded(void);

/* New objects.  A cons of heap_list is charged 3 words, one of heap_cons 2, a block one more than its fields.
   heap_grow gives a block more fields, and it stays the same object. */
struct value heap_cons(uint32_t area, struct value car, struct value cdr);
struct value heap_list(uint32_t area, const struct value *cars, uint32_t count);
struct value heap_block(uint32_t area, uint32_t code, uint32_t fields);
void heap_grow(struct value block, uint32_t fields);

/* Parts of an object: the car is 0 and the cdr 1, and the fields of a block count from 0. */
struct value heap_read(struct value object, uint32_t part);
void heap_write(struct value object, uint32_t part, struct value value);

/* Functions that change nothing, for replies and dumps.  Two references have the same identity if and only if they are to
   the same object; the identity may be another one after the next command. */
struct look {
    uint32_t area, charge, code, length;        /* the code and the number of fields of a block */
};
struct look heap_look(struct value object);
struct value heap_peek(struct value object, uint32_t part);
uintptr_t heap_identity(struct value object);

/* What an area, and what all objects and husks of a level, are charged. */
uint32_t heap_charged(uint32_t area);
uint32_t heap_level_charged(uint32_t level);

/* Collections.  The levels of a flip are a set of bits, 1 << level, and ALL_LEVELS if it is full.  It returns
   the greatest number of pages of 256 words that it will scan, besides registers and what is condemned.  heap_scan does
   this number of units of work, or all that remain; when none remains, the phase is OVER. */
enum phase { IDLE, RUNNING, OVER };
enum { ALL_LEVELS = 0x7f };
enum phase heap_phase(void);
uint32_t heap_flip(uint32_t levels);
void heap_scan(uint64_t units);
void heap_reclaim(void);

#endif
