/* A template: put your runtime's calls in the place of these functions.  ../c/heap.h says what each has to do.

   Objects are C's own here, nothing is collected, and a collection is finished at the first scan: enough for the grade
   identity.  Worlds, commands and dumps are those of ../c. */
#include "heap.h"

#include <stdio.h>
#include <stdlib.h>

struct object {
    struct look look;
    struct value *parts;                        /* the car and the cdr, or the fields */
};

static enum phase phase;

void heap_open(void)                            /* start your runtime; `registers` are its roots */
{
}

void heap_loaded(void)
{
}

static struct value new_object(enum value_kind kind, struct look look, uint32_t parts)
{
    struct object *object = malloc(sizeof *object);

    if (object == NULL || (object->parts = calloc(parts + 1, sizeof(struct value))) == NULL) {
        puts("error: no memory");
        exit(5);
    }
    object->look = look;
    return (struct value){.kind = kind, .object = (uintptr_t)object};
}

static struct object *object_of(struct value value)
{
    return (struct object *)value.object;
}

static struct value new_cons(uint32_t area, uint32_t charge, struct value car, struct value cdr)
{
    struct value cons = new_object(CONS, (struct look){.area = area, .charge = charge}, 2);

    heap_write(cons, 0, car);
    heap_write(cons, 1, cdr);
    return cons;
}

struct value heap_cons(uint32_t area, struct value car, struct value cdr)
{
    return new_cons(area, 2, car, cdr);
}

struct value heap_list(uint32_t area, const struct value *cars, uint32_t count)
{
    struct value list = {.kind = NIL};

    for (uint32_t i = count; i > 0; i--)
        list = new_cons(area, 3, cars[i - 1], list);
    return list;
}

struct value heap_block(uint32_t area, uint32_t code, uint32_t fields)
{
    return new_object(BLOCK, (struct look){area, fields + 1, code, fields}, fields);
}

void heap_grow(struct value block, uint32_t fields)         /* for the grade space */
{
    (void)block;
    (void)fields;
    abort();
}

struct value heap_read(struct value object, uint32_t part)
{
    return object_of(object)->parts[part];
}

void heap_write(struct value object, uint32_t part, struct value value)
{
    object_of(object)->parts[part] = value;
}

struct value heap_peek(struct value object, uint32_t part)
{
    return heap_read(object, part);
}

struct look heap_look(struct value object)
{
    return object_of(object)->look;
}

uintptr_t heap_identity(struct value object)
{
    return object.object;
}

uint32_t heap_charged(uint32_t area)            /* for the grade space: what the area is charged */
{
    (void)area;
    return 0;
}

uint32_t heap_level_charged(uint32_t level)     /* for the grade phases: what all objects of a level are charged */
{
    (void)level;
    return 0;
}

enum phase heap_phase(void)
{
    return phase;
}

uint32_t heap_flip(uint32_t levels)             /* begin a collection */
{
    (void)levels;
    phase = RUNNING;
    return 0;
}

void heap_scan(uint64_t units)                  /* do some of its work */
{
    (void)units;
    if (phase == RUNNING)
        phase = OVER;
}

void heap_reclaim(void)                         /* free what wasn't reached */
{
    phase = IDLE;
}
