/* Conses and blocks: how they are laid, read and written. */
#include "collector.h"
#include "nursery.h"

static bool world_is_loaded;

void heap_loaded(void)
{
    world_is_loaded = true;
}

static uint32_t level_of_new(uint32_t area)
{
    return world_is_loaded && world.areas[area].kind == EPHEMERAL ? 1 : 0;
}

/* Words for a new object, which is charged for them and perhaps for more. */
static address new_object(uint32_t area, uint32_t count, uint32_t charge)
{
    uint32_t level = level_of_new(area);
    address young = world_is_loaded ? place_young(area, count) : 0;

    accounts[area].objects[level] += charge;
    return young != 0 ? young : place(area, level, count);
}

struct value heap_cons(uint32_t area, struct value car, struct value cdr)
{
    address pair = new_object(area, 2, 2);

    write_word(pair, car, PAIR);
    write_word(pair + 1, cdr, SECOND);
    remember_writer(pair);
    return (struct value){.kind = CONS, .object = pair};
}

/* A list is laid as cells, one word for each cons.  A cell is charged 3 words: if its cdr is written it becomes a
   pair, and needs no more room then than it has paid for. */
struct value heap_list(uint32_t area, const struct value *cars, uint32_t count)
{
    address cell = new_object(area, count, 3 * count);

    for (uint32_t i = 0; i < count; i++)
        write_word(cell + i, cars[i], i + 1 < count ? NEXT : LAST);
    for (uint32_t i = 0; i < count; i++)
        remember_writer(cell + i);
    return (struct value){.kind = CONS, .object = cell};
}

/* Lays a block whose fields are nil. */
static void lay_block(address block, uint32_t code, uint32_t fields)
{
    memory[block] = (struct word){.tag = HEADER, .bits = code * LENGTHS + fields};
    for (uint32_t i = 0; i < fields; i++)
        write_word(block + 1 + i, (struct value){.kind = NIL}, NEXT);
}

struct value heap_block(uint32_t area, uint32_t code, uint32_t fields)
{
    address block = new_object(area, fields + 1, fields + 1);

    lay_block(block, code, fields);
    return (struct value){.kind = BLOCK, .object = block};
}

/* ---- Looks */

uintptr_t heap_identity(struct value object)
{
    return final_address((address)object.object);
}

struct look heap_look(struct value object)
{
    address at = final_address((address)object.object);
    struct look look = {.area = region_of(at)->area, .charge = charge_at(at)};

    if (object.kind == BLOCK) {
        look.code = memory[at].bits / LENGTHS;
        look.length = block_length(at);
    }
    return look;
}

/* Finds the word of a part.  The cdr of a cell has none, since the cell's code determines it: then it is the cell. */
static bool has_word(struct value object, uint32_t part, address *at)
{
    *at = final_address((address)object.object);
    if (object.kind == CONS && part == 1 && !is_pair(*at))
        return false;
    *at += object.kind == BLOCK ? part + 1 : part;
    return true;
}

struct value heap_peek(struct value object, uint32_t part)
{
    address at;

    if (has_word(object, part, &at))
        return value_of(memory[at]);
    if (memory[at].cdr_code == LAST)
        return (struct value){.kind = NIL};
    return (struct value){.kind = CONS, .object = at + 1};
}

/* ---- Reads and writes */

struct value heap_read(struct value object, uint32_t part)
{
    address at;

    if (has_word(object, part, &at))
        settle(at);
    return heap_peek(object, part);
}

/* A cell has no word for another cdr: it is relocated as a pair, and a forward leads there. */
static void cell_to_pair(struct value object, struct value cdr)
{
    struct value car = heap_read(object, 0);
    address cell = final_address((address)object.object);
    address pair = place(region_of(cell)->area, region_of(cell)->level, 2);

    write_word(pair, car, PAIR);
    write_word(pair + 1, cdr, NEXT);            /* it stays charged 3 */
    remember_writer(pair);
    forward(cell, pair);
}

void heap_write(struct value object, uint32_t part, struct value value)
{
    address at;

    if (has_word(object, part, &at)) {
        write_word(at, value, memory[at].cdr_code);
        remember_writer(final_address((address)object.object));
    } else {
        cell_to_pair(object, value);
    }
}

/* A block that grows is relocated, too.  What it leaves is a husk: its words are charged until they are collected,
   and they refer to nothing any more. */
void heap_grow(struct value object, uint32_t fields)
{
    struct look look = heap_look(object);
    address old = final_address((address)object.object);
    uint32_t level = region_of(old)->level;
    address wide = place(look.area, level, fields + 1);

    lay_block(wide, look.code, fields);
    for (uint32_t i = 0; i < look.length; i++) {
        write_word(wide + 1 + i, heap_read(object, i), NEXT);
        memory[old + 1 + i].tag = NOTHING;
    }
    remember_writer(wide);
    forward(old, wide);
    accounts[look.area].objects[level] += fields - look.length;
    accounts[look.area].husks[level] += look.length + 1;
}

/* ---- Charges */

uint32_t heap_charged(uint32_t area)
{
    uint32_t charged = accounts[area].condemned;

    for (uint32_t level = 0; level < LEVEL_COUNT; level++)
        charged += accounts[area].objects[level] + accounts[area].husks[level];
    return charged;
}

uint32_t heap_level_charged(uint32_t level)
{
    uint32_t charged = 0;

    for (uint32_t area = 0; area < world.area_count; area++)
        charged += accounts[area].objects[level] + accounts[area].husks[level];
    return charged;
}
