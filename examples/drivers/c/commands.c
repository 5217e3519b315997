/* What each command does, and its reply: one line, except for `stats` and `dump`. */
#include "commands.h"
#include "dump.h"

#include <inttypes.h>
#include <stdio.h>
#include <stddef.h>

struct value registers[MOST_REGISTERS];

static void reply_value(struct value value)
{
    struct look look;

    switch (value.kind) {
    case NIL:
        puts("nil");
        break;
    case NUMBER:
        printf("%" PRId32 "\n", value.number);
        break;
    case CONS:
        puts("cons");
        break;
    case BLOCK:
        look = heap_look(value);
        printf("block %" PRIu32 " %" PRIu32 "\n", look.code, look.length);
        break;
    }
}

/* Whether the register holds an object of this kind; if not, that is the reply. */
static bool holds(uint32_t at, enum value_kind kind)
{
    if (registers[at].kind != kind)
        puts("wrong-type");
    return registers[at].kind == kind;
}

static bool has_field(struct value block, uint32_t index)
{
    uint32_t length = heap_look(block).length;

    if (index >= length)
        printf("no-field %" PRIu32 "\n", length);
    return index < length;
}

/* ---- Allocation */

static uint32_t full_levels(void)
{
    uint32_t levels = 0;

    for (uint32_t level = 1; level <= world.levels; level++)
        if (world.capacity[level] > 0 && heap_level_charged(level) >= world.capacity[level])
            levels |= 1u << level;
    return levels;
}

static bool collects_itself(void)
{
    for (uint32_t level = 1; level <= world.levels; level++)
        if (world.capacity[level] > 0)
            return true;
    return false;
}

/* Before a command that allocates, whatever it will reply: in a world with capacities a collection whose scan has
   finished is reclaimed, and levels that are full are flipped. */
static void collect_silently(void)
{
    if (!collects_itself())
        return;
    if (heap_phase() == OVER)
        heap_reclaim();
    if (heap_phase() == IDLE && full_levels() != 0)
        heap_flip(full_levels());
}

/* Whether the area has room for this number of words; if so, the allocation pays for them by scanning. */
static bool has_room(uint32_t area, uint32_t wanted)
{
    uint32_t charged = heap_charged(area), quota = world.areas[area].quota;

    if (charged + wanted > quota) {
        printf("exhausted %s %" PRIu32 " %" PRIu32 " %" PRIu32 "\n", world.areas[area].name, charged, wanted, quota);
        return false;
    }
    heap_scan((uint64_t)world.rate * wanted);
    return true;
}

static void run_cons(const struct command *command)
{
    const uint32_t *n = command->number;

    collect_silently();
    if (!has_room(n[1], 2))
        return;
    registers[n[0]] = heap_cons(n[1], registers[n[2]], registers[n[3]]);
    puts("ok");
}

static void run_list(const struct command *command)
{
    const uint32_t *n = command->number;
    struct value cars[MOST_ITEMS];

    collect_silently();
    if (!has_room(n[1], 3 * command->item_count))
        return;
    for (uint32_t i = 0; i < command->item_count; i++)
        cars[i] = registers[command->items[i]];
    registers[n[0]] = heap_list(n[1], cars, command->item_count);
    puts("ok");
}

static void run_make(const struct command *command)
{
    const uint32_t *n = command->number;

    collect_silently();
    if (!has_room(n[1], n[3] + 1))
        return;
    registers[n[0]] = heap_block(n[1], n[2], n[3]);
    puts("ok");
}

/* A block that grows gets one more than twice its fields, if that is more than requested: so a block that grows
   step by step is seldom relocated. */
static uint32_t grown_length(uint32_t length, uint32_t wanted)
{
    uint32_t doubled = 2 * length + 1;

    if (doubled > MOST_FIELDS)
        doubled = MOST_FIELDS;
    return wanted > doubled ? wanted : doubled;
}

static void run_grow(const struct command *command)
{
    const uint32_t *n = command->number;
    struct look look;

    collect_silently();
    if (!holds(n[0], BLOCK))
        return;
    look = heap_look(registers[n[0]]);
    if (n[1] > look.length) {
        uint32_t length = grown_length(look.length, n[1]);

        if (!has_room(look.area, length + 1))
            return;
        heap_grow(registers[n[0]], length);
    }
    puts("ok");
}

/* ---- Reads and writes */

static void run_set(const struct command *command)
{
    registers[command->number[0]] = command->value;
    puts("ok");
}

static void run_move(const struct command *command)
{
    registers[command->number[0]] = registers[command->number[1]];
    puts("ok");
}

static void fetch(uint32_t to, struct value object, uint32_t part)
{
    registers[to] = heap_read(object, part);
    reply_value(registers[to]);
}

static void run_car(const struct command *command)
{
    if (holds(command->number[1], CONS))
        fetch(command->number[0], registers[command->number[1]], 0);
}

static void run_cdr(const struct command *command)
{
    if (holds(command->number[1], CONS))
        fetch(command->number[0], registers[command->number[1]], 1);
}

static void run_get(const struct command *command)
{
    const uint32_t *n = command->number;

    if (holds(n[1], BLOCK) && has_field(registers[n[1]], n[2]))
        fetch(n[0], registers[n[1]], n[2]);
}

static void store(struct value object, uint32_t part, uint32_t from)
{
    heap_write(object, part, registers[from]);
    puts("ok");
}

static void run_rplaca(const struct command *command)
{
    if (holds(command->number[0], CONS))
        store(registers[command->number[0]], 0, command->number[1]);
}

static void run_rplacd(const struct command *command)
{
    if (holds(command->number[0], CONS))
        store(registers[command->number[0]], 1, command->number[1]);
}

static void run_put(const struct command *command)
{
    const uint32_t *n = command->number;

    if (holds(n[0], BLOCK) && has_field(registers[n[0]], n[1]))
        store(registers[n[0]], n[1], n[2]);
}

static void run_size(const struct command *command)
{
    if (holds(command->number[0], BLOCK))
        printf("%" PRIu32 "\n", heap_look(registers[command->number[0]]).length);
}

static bool same_value(struct value a, struct value b)
{
    if (a.kind != b.kind)
        return false;
    if (a.kind == NIL)
        return true;
    if (a.kind == NUMBER)
        return a.number == b.number;
    return heap_identity(a) == heap_identity(b);
}

static void run_eq(const struct command *command)
{
    puts(same_value(registers[command->number[0]], registers[command->number[1]]) ? "t" : "nil");
}

/* ---- The collector */

static void run_flip(const struct command *command)
{
    if (heap_phase() == IDLE)
        printf("flipped %" PRIu32 "\n", heap_flip(command->levels));
    else
        puts("busy");
}

static void run_scavenge(const struct command *command)
{
    if (heap_phase() == IDLE) {
        puts("not-flipped");
        return;
    }
    heap_scan(command->number[0]);
    puts(heap_phase() == OVER ? "done" : "more");
}

static void run_reclaim(const struct command *command)
{
    (void)command;
    if (heap_phase() == IDLE) {
        puts("not-flipped");
    } else if (heap_phase() == RUNNING) {
        puts("not-done");
    } else {
        heap_reclaim();
        puts("reclaimed");
    }
}

/* This runtime has no pages of its own. */
static void run_page_out(const struct command *command)
{
    (void)command;
    puts("ok");
}

static void run_stats(const struct command *command)
{
    (void)command;
    for (uint32_t i = 0; i < world.area_count; i++) {
        const struct area *area = &world.areas[i];

        printf("area %s %" PRIu32 " %" PRIu32 "\n", area->name, heap_charged(i), area->quota);
    }
}

static void run_dump(const struct command *command)
{
    (void)command;
    write_dump();
}

const struct command_form command_forms[] = {
    {"set", "RV", run_set},
    {"move", "RR", run_move},
    {"cons", "RARR", run_cons},
    {"list", "RA*", run_list},
    {"make", "RACL", run_make},
    {"grow", "RL", run_grow},
    {"car", "RR", run_car},
    {"cdr", "RR", run_cdr},
    {"rplaca", "RR", run_rplaca},
    {"rplacd", "RR", run_rplacd},
    {"get", "RRN", run_get},
    {"put", "RNR", run_put},
    {"size", "R", run_size},
    {"eq", "RR", run_eq},
    {"flip", "F", run_flip},
    {"scavenge", "N", run_scavenge},
    {"reclaim", "", run_reclaim},
    {"page-out", "N", run_page_out},
    {"stats", "", run_stats},
    {"dump", "", run_dump},
    {NULL, NULL, NULL},
};
