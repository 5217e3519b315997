/* Objects are numbered in the order in which they are met: a list along its cdrs, then what its cars refer to.
   Everything is looked at by heap_peek, so a dump in a collection moves nothing. */
#include "dump.h"
#include "heap.h"
#include "memory_or_die.h"

#include <inttypes.h>
#include <stdio.h>
#include <stdlib.h>

/* The objects met, in the order of their numbers, and for each of them how many conses the run has that begins at
   it, or 0 if it has a line of its own. */
static struct {
    struct value *objects;
    uint32_t *run_length;
    uint32_t count, room;
} met;

/* Numbers by identity: a table with open addressing, at most half full.  A place has a number plus 1, or 0. */
static struct {
    uint32_t *places;
    uint32_t size;
} table;

/* The place of an object in the table, or the free place for it. */
static uint32_t *place_of(struct value object)
{
    uintptr_t identity = heap_identity(object);
    uint32_t at = (uint32_t)((identity * 0x9e3779b97f4a7c15u) >> 32) & (table.size - 1);

    while (table.places[at] != 0 && heap_identity(met.objects[table.places[at] - 1]) != identity)
        at = (at + 1) & (table.size - 1);
    return &table.places[at];
}

static bool is_met(struct value object)
{
    return *place_of(object) != 0;
}

static void widen(void)
{
    met.room *= 2;
    met.objects = resized(met.objects, met.room * sizeof *met.objects);
    met.run_length = resized(met.run_length, met.room * sizeof *met.run_length);
    free(table.places);
    table.size = 2 * met.room;
    table.places = zeroed(table.size, sizeof *table.places);
    for (uint32_t number = 0; number < met.count; number++)
        *place_of(met.objects[number]) = number + 1;
}

static void give_number(struct value object)
{
    if (met.count == met.room)
        widen();
    met.objects[met.count++] = object;
    *place_of(object) = met.count;
}

static bool is_reference(struct value value)
{
    return value.kind == CONS || value.kind == BLOCK;
}

static void visit(struct value value)
{
    if (!is_reference(value) || is_met(value))
        return;
    give_number(value);
    while (value.kind == CONS) {
        value = heap_peek(value, 1);
        if (value.kind != CONS || is_met(value))
            return;
        give_number(value);
    }
}

static uint32_t width(struct value object)
{
    return object.kind == CONS ? 2 : heap_look(object).length;
}

static void visit_all(void)
{
    for (uint32_t at = 0; at < world.registers; at++)
        visit(registers[at]);
    for (uint32_t number = 0; number < met.count; number++)
        for (uint32_t part = 0; part < width(met.objects[number]); part++)
            visit(heap_peek(met.objects[number], part));
}

/* ---- Runs: conses of charge 3 and one area with consecutive numbers, each the cdr of the one before, the last
   cdr nil */

static bool is_cell(struct value object)
{
    return object.kind == CONS && heap_look(object).charge == 3;
}

static bool is_tail(struct value object)
{
    return is_cell(object) && heap_peek(object, 1).kind == NIL;
}

static bool leads_to(uint32_t number, uint32_t next)
{
    struct value object = met.objects[number], cdr;

    if (!is_cell(object) || heap_look(object).area != heap_look(met.objects[next]).area)
        return false;
    cdr = heap_peek(object, 1);
    return is_reference(cdr) && *place_of(cdr) == next + 1;
}

static void find_runs(void)
{
    for (uint32_t tail = 0; tail < met.count; tail++) {
        uint32_t first = tail;

        met.run_length[tail] = 0;
        if (!is_tail(met.objects[tail]))
            continue;
        while (first > 0 && tail - first + 1 < MOST_ITEMS && leads_to(first - 1, first))
            first--;
        met.run_length[first] = tail - first + 1;
    }
}

/* ---- Lines */

static void write_value(struct value value)
{
    if (value.kind == NIL)
        printf(" nil");
    else if (value.kind == NUMBER)
        printf(" %" PRId32, value.number);
    else
        printf(" #%" PRIu32, *place_of(value) - 1);
}

static void write_header(void)
{
    static const char *const kinds[] = {"static", "dynamic", "ephemeral"};

    printf("lispm-world 2\nspace %" PRIu32 " %" PRIu32 " %" PRIu32 " %" PRIu32 " %" PRIu32 "\n",
           world.regions, world.frames, world.registers, world.levels, world.rate);
    for (uint32_t i = 0; i < world.area_count; i++) {
        const struct area *area = &world.areas[i];

        printf("area %s %s %" PRIu32 "\n", area->name, kinds[area->kind], area->quota);
    }
    printf("capacity");
    for (uint32_t level = 1; level <= world.levels; level++)
        printf(" %" PRIu32, world.capacity[level]);
    putchar('\n');
}

static void write_run(uint32_t first, uint32_t length)
{
    printf("run %s", world.areas[heap_look(met.objects[first]).area].name);
    for (uint32_t i = 0; i < length; i++)
        write_value(heap_peek(met.objects[first + i], 0));
    putchar('\n');
}

static void write_object(struct value object)
{
    struct look look = heap_look(object);

    if (object.kind == CONS)
        printf("cons %s", world.areas[look.area].name);
    else
        printf("block %s %" PRIu32, world.areas[look.area].name, look.code);
    for (uint32_t part = 0; part < width(object); part++)
        write_value(heap_peek(object, part));
    putchar('\n');
}

static void write_objects(void)
{
    uint32_t number = 0;

    while (number < met.count) {
        uint32_t length = met.run_length[number];

        if (length > 0)
            write_run(number, length);
        else
            write_object(met.objects[number]);
        number += length > 0 ? length : 1;
    }
}

static void write_roots(void)
{
    for (uint32_t at = 0; at < world.registers; at++)
        if (registers[at].kind != NIL) {
            printf("root %" PRIu32, at);
            write_value(registers[at]);
            putchar('\n');
        }
}

void write_dump(void)
{
    met.count = 0;
    met.room = 32;
    widen();
    visit_all();
    find_runs();
    write_header();
    write_objects();
    write_roots();
    puts("end-world");
}
