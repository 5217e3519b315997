/* The heap of ../c/heap.h over the collector of Boehm, Demers and Weiser.

   Objects are never moved, and the collector finds the roots by itself: `registers` is among the program's data.  A
   flip is one full collection; no work remains after it, so the first scan that is requested finishes it. */
#include "heap.h"

#include <gc.h>
#include <stdio.h>
#include <stdlib.h>
#include <string.h>

/* The parts are two values of a cons, or the fields of a block.  They follow the object; a block that grew has
   them elsewhere, so that the object keeps its address. */
struct object {
    uint32_t area, charge, code, length;
    struct value *parts;
};

static enum phase phase;
static uint32_t charged[MOST_AREAS];            /* what was ever made; nothing is taken back */

/* A reader that loads a world keeps objects in places that the collector doesn't search. */
void heap_open(void)
{
    GC_INIT();
    GC_disable();
}

void heap_loaded(void)
{
    GC_enable();
}

static void *allocated(size_t bytes)
{
    void *memory = GC_MALLOC(bytes);            /* all zero, so each value is nil */

    if (memory == NULL) {
        puts("error: no memory");
        exit(5);
    }
    return memory;
}

static struct object *new_object(uint32_t area, uint32_t charge, uint32_t parts)
{
    struct object *object = allocated(sizeof *object + parts * sizeof(struct value));

    charged[area] += charge;
    object->area = area;
    object->charge = charge;
    object->parts = (struct value *)(object + 1);
    return object;
}

static struct object *object_of(struct value value)
{
    return (struct object *)value.object;
}

static struct value new_cons(uint32_t area, uint32_t charge, struct value car, struct value cdr)
{
    struct object *cons = new_object(area, charge, 2);

    cons->parts[0] = car;
    cons->parts[1] = cdr;
    return (struct value){.kind = CONS, .object = (uintptr_t)cons};
}

struct value heap_cons(uint32_t area, struct value car, struct value cdr)
{
    return new_cons(area, 2, car, cdr);
}

struct value heap_list(uint32_t area, const struct value *cars, uint32_t count)
{
    struct value list = {.kind = NIL};

    for (uint32_t i = count; i > 0; i--)
        list = new_cons(area, 3, cars[i - 1], list);
    return list;
}

struct value heap_block(uint32_t area, uint32_t code, uint32_t fields)
{
    struct object *block = new_object(area, fields + 1, fields);

    block->code = code;
    block->length = fields;
    return (struct value){.kind = BLOCK, .object = (uintptr_t)block};
}

void heap_grow(struct value value, uint32_t fields)
{
    struct object *block = object_of(value);
    struct value *wider = allocated(fields * sizeof *wider);

    memcpy(wider, block->parts, block->length * sizeof *wider);
    block->parts = wider;
    block->length = fields;
    block->charge = fields + 1;
    charged[block->area] += block->charge;
}

struct value heap_read(struct value object, uint32_t part)
{
    return object_of(object)->parts[part];
}

void heap_write(struct value object, uint32_t part, struct value value)
{
    object_of(object)->parts[part] = value;
}

struct value heap_peek(struct value object, uint32_t part)
{
    return heap_read(object, part);
}

struct look heap_look(struct value value)
{
    struct object *object = object_of(value);

    return (struct look){object->area, object->charge, object->code, object->length};
}

uintptr_t heap_identity(struct value object)
{
    return object.object;
}

uint32_t heap_charged(uint32_t area)
{
    return charged[area];
}

/* No level is ever full: the grade of identity has no capacities. */
uint32_t heap_level_charged(uint32_t level)
{
    (void)level;
    return 0;
}

enum phase heap_phase(void)
{
    return phase;
}

uint32_t heap_flip(uint32_t levels)
{
    (void)levels;
    phase = RUNNING;
    GC_gcollect();
    return 0;
}

void heap_scan(uint64_t units)
{
    (void)units;
    if (phase == RUNNING)
        phase = OVER;
}

void heap_reclaim(void)
{
    phase = IDLE;
}
