/* Reads a world: the space, the areas, the capacities, the objects and the roots. */
#include "world.h"
#include "lines.h"
#include "memory_or_die.h"

#include <inttypes.h>
#include <stdlib.h>
#include <string.h>

struct world world;

/* ---- A world's space and areas */

static void read_format(void)
{
    if (!read_line() || strncmp(line.text, "lispm-world ", 12) != 0 || line.length != 13
        || (line.text[12] != '1' && line.text[12] != '2'))
        refuse(REFUSED, "not a world");
    world.format = (uint32_t)(line.text[12] - '0');
}

static void read_space(void)
{
    next_line();
    if (!is_line_of("space"))
        refuse(REFUSED, "space expected");
    want_words(word_count == 6);
    world.regions = number_in(words[1], 5, MOST_REGIONS);
    world.frames = number_in(words[2], 32, 4096);
    world.registers = number_in(words[3], 1, MOST_REGISTERS);
    world.levels = number_in(words[4], 1, MOST_LEVELS);
    world.rate = number_in(words[5], 0, 16);
}

static enum area_kind kind_in(const char *word)
{
    if (strcmp(word, "static") == 0)
        return STATIC;
    if (strcmp(word, "dynamic") == 0)
        return DYNAMIC;
    if (strcmp(word, "ephemeral") != 0)
        refuse(REFUSED, "bad kind");
    return EPHEMERAL;
}

/* A region for each 1,024 words of a quota, and two for each level: then there is always room for a copy of what
   is condemned. */
static uint32_t regions_wanted(void)
{
    uint32_t wanted = 0;

    for (uint32_t area = 0; area < world.area_count; area++)
        wanted += (world.areas[area].quota + 1023) / 1024 + 2 * (world.levels + 1);
    return wanted;
}

static void read_area(void)
{
    struct area *area = &world.areas[world.area_count];
    uint32_t other;

    if (world.area_count == MOST_AREAS)
        refuse(REFUSED, "too many areas");
    want_words(word_count == 4);
    if (!is_name(words[1]))
        refuse(REFUSED, "bad name");
    if (is_area(words[1], &other))
        refuse(REFUSED, "area twice");
    strcpy(area->name, words[1]);
    area->kind = kind_in(words[2]);
    area->quota = number_in(words[3], 0, 1048576);
    world.area_count++;
    if (regions_wanted() > world.regions)
        refuse(NO_ROOM, "space too small");
}

static void read_areas(void)
{
    next_line();
    if (!is_line_of("area"))
        refuse(REFUSED, "area expected");
    while (is_line_of("area")) {
        read_area();
        next_line();
    }
}

/* Format 1 has no capacities: they are 0. */
static void read_capacities(void)
{
    if (world.format == 1)
        return;
    if (!is_line_of("capacity"))
        refuse(REFUSED, "capacity expected");
    want_words(word_count == world.levels + 1);
    for (uint32_t level = 1; level <= world.levels; level++)
        world.capacity[level] = number_in(words[level], 0, 16777216);
    next_line();
}

/* ---- A world's objects.  They are made with empty parts, and filled once all are there. */

static struct {
    struct value *values;
    uint32_t count, room;
} objects;

struct filling {
    struct value holder;
    uint32_t at, object;
};

static struct {
    struct filling *list;
    uint32_t count, room;
} fillings;

static void add_object(struct value object)
{
    if (objects.count == objects.room) {
        objects.room = 2 * objects.room + 64;
        objects.values = resized(objects.values, objects.room * sizeof *objects.values);
    }
    objects.values[objects.count++] = object;
}

static void add_part(struct value holder, uint32_t at, struct part part)
{
    if (!part.is_object) {
        heap_write(holder, at, part.value);
        return;
    }
    if (fillings.count == fillings.room) {
        fillings.room = 2 * fillings.room + 64;
        fillings.list = resized(fillings.list, fillings.room * sizeof *fillings.list);
    }
    fillings.list[fillings.count++] = (struct filling){holder, at, part.object};
}

/* What the objects so far are charged, by area. */
static uint32_t charged[MOST_AREAS];

static void want_quota(uint32_t area, uint32_t wanted)
{
    const char *name = world.areas[area].name;
    uint32_t quota = world.areas[area].quota;

    if (charged[area] + wanted > quota)
        refuse(NO_ROOM, "exhausted %s %" PRIu32 " %" PRIu32 " %" PRIu32, name, charged[area], wanted, quota);
    charged[area] += wanted;
}

/* The values of an object line. */
static struct {
    struct part list[MOST_FIELDS];
    uint32_t count;
} parts;

static void read_parts(uint32_t first)
{
    parts.count = word_count - first;
    for (uint32_t i = 0; i < parts.count; i++)
        parts.list[i] = part_in(words[first + i]);
}

static void add_whole(struct value object)
{
    add_object(object);
    for (uint32_t i = 0; i < parts.count; i++)
        add_part(object, i, parts.list[i]);
}

static void read_cons(void)
{
    const struct value nil = {.kind = NIL};
    uint32_t area;

    want_words(word_count == 4);
    area = area_in(words[1]);
    read_parts(2);
    want_quota(area, 2);
    add_whole(heap_cons(area, nil, nil));
}

static void read_block(void)
{
    uint32_t area, code;

    if (word_count > 3 + MOST_FIELDS)
        refuse(REFUSED, "too many fields");
    want_words(word_count >= 3);
    area = area_in(words[1]);
    code = number_in(words[2], 0, 65535);
    read_parts(3);
    want_quota(area, parts.count + 1);
    add_whole(heap_block(area, code, parts.count));
}

static void read_run(void)
{
    static const struct value nils[MOST_ITEMS];         /* NIL is 0 */
    uint32_t area;
    struct value cell;

    if (word_count > 2 + MOST_ITEMS)
        refuse(REFUSED, "too many items");
    want_words(word_count >= 3);
    area = area_in(words[1]);
    read_parts(2);
    want_quota(area, 3 * parts.count);
    cell = heap_list(area, nils, parts.count);
    for (uint32_t i = 0; i < parts.count; i++) {
        add_object(cell);
        add_part(cell, 0, parts.list[i]);
        cell = heap_read(cell, 1);
    }
}

/* Answers false if the line is none of an object. */
static bool read_object(void)
{
    if (is_line_of("cons"))
        read_cons();
    else if (is_line_of("block"))
        read_block();
    else if (is_line_of("run") && world.format == 2)
        read_run();
    else
        return false;
    return true;
}

static void fill_objects(void)
{
    const uint64_t none = (uint64_t)UINT32_MAX + 1;
    uint64_t missing = none;                    /* the least number of an object that isn't there */

    for (uint32_t i = 0; i < fillings.count; i++)
        if (fillings.list[i].object >= objects.count && fillings.list[i].object < missing)
            missing = fillings.list[i].object;
    if (missing != none)
        refuse(REFUSED, "no object %" PRIu64, missing);
    for (uint32_t i = 0; i < fillings.count; i++)
        heap_write(fillings.list[i].holder, fillings.list[i].at, objects.values[fillings.list[i].object]);
}

/* The registers that had a root line. */
static bool is_given[MOST_REGISTERS];

static void read_root(void)
{
    uint32_t at;
    struct part part;

    want_words(word_count == 3);
    at = register_in(words[1]);
    if (is_given[at])
        refuse(REFUSED, "register twice");
    is_given[at] = true;
    part = part_in(words[2]);
    if (part.is_object && part.object >= objects.count)
        refuse(REFUSED, "no object %" PRIu32, part.object);
    registers[at] = part.is_object ? objects.values[part.object] : part.value;
}

void read_world(void)
{
    read_format();
    read_space();
    read_areas();
    read_capacities();
    heap_open();
    while (read_object())
        next_line();
    if (is_line_of("root") || is_line_of("trace"))
        fill_objects();
    while (is_line_of("root")) {
        read_root();
        next_line();
    }
    if (!is_line_of("trace"))
        refuse(REFUSED, "unexpected line");
    want_words(word_count == 1);
    free(objects.values);
    free(fillings.list);
    heap_loaded();
}
