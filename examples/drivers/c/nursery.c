/* Minor collections: young objects that are reached from registers, or from objects outside that were written to, move
   out of the nursery. */
#include "nursery.h"
#include "collector.h"

#include <string.h>

enum { WRITER = 0x80 };                         /* in `remembered` of an object's first word: it is in `writers` */

static struct slots writers;                    /* objects outside that may refer to young ones */
static struct slots copies;                     /* the place of each object that moved out, and its number of words */
static bool is_full;

static uint32_t nursery_of(uint32_t area)
{
    return world.regions + area;
}

void open_nursery(void)
{
    for (uint32_t area = 0; area < world.area_count; area++)
        regions[nursery_of(area)] = (struct region){
            .state = LIVE, .area = area, .level = world.areas[area].kind == EPHEMERAL ? 1 : 0};
}

bool is_young(address at)
{
    return at >= world.regions * REGION_WORDS;
}

address place_young(uint32_t area, uint32_t count)
{
    struct region *region = &regions[nursery_of(area)];
    address at = nursery_of(area) * REGION_WORDS + region->used;

    if (NURSERY_WORDS == 0)
        return 0;
    if (!NURSERY_KEEPS_ALL && (heap_phase() != IDLE || world.areas[area].kind == STATIC))
        return 0;
    if (region->used + count > NURSERY_WORDS) {
        is_full = true;
        return 0;
    }
    region->used += count;
    return at;
}

void remember_writer(address object)
{
    struct word *first = &memory[object];

    if (NURSERY_WORDS == 0 || is_young(object) || (first->remembered & WRITER) != 0)
        return;
    first->remembered |= WRITER;
    add_slot(&writers, object);
}

void add_copy(address to, uint32_t count)
{
    add_slot(&copies, to);
    add_slot(&copies, count);
}

static address moved_out(address at)
{
    at = final_address(at);
    return is_young(at) ? copy_object(at) : at;
}

static void scan_words(address at, uint32_t count)
{
    for (uint32_t i = at; i < at + count; i++)
        if (memory[i].tag == CONS_WORD || memory[i].tag == BLOCK_WORD) {
            memory[i].bits = moved_out(memory[i].bits);
            remember(i);
        }
}

/* An object that was relocated since has a forward, and its new place is a writer of its own. */
static void scan_writer(address object)
{
    memory[object].remembered &= (uint8_t)~WRITER;
    if (memory[object].tag == FORWARD)
        return;
    if (is_block(object))
        scan_words(object + 1, block_length(object));
    else
        scan_words(object, is_pair(object) ? 2 : 1);
}

static uint32_t words_at(address at)
{
    if (memory[at].tag == NOTHING || memory[at].tag == FORWARD)         /* of a husk, or a cell that has gone on */
        return 1;
    return is_block(at) ? block_length(at) + 1 : is_pair(at) ? 2 : 1;
}

/* An object at a time: a cell moves with those that follow it, and these have forwards then. */
static void move_all_out(void)
{
    for (uint32_t area = 0; area < world.area_count; area++) {
        address at = nursery_of(area) * REGION_WORDS, end = at + regions[nursery_of(area)].used;

        while (at < end) {
            uint32_t count = words_at(at);

            if (memory[at].tag != NOTHING && memory[at].tag != FORWARD)
                copy_object(at);
            at += count;
        }
    }
}

static void scan_registers(void)
{
    for (uint32_t at = 0; at < world.registers; at++)
        if (registers[at].kind == CONS || registers[at].kind == BLOCK)
            registers[at].object = moved_out((address)registers[at].object);
}

static void empty_nursery(void)
{
    for (uint32_t area = 0; area < world.area_count; area++) {
        memset(&memory[nursery_of(area) * REGION_WORDS], 0, NURSERY_WORDS * sizeof *memory);
        regions[nursery_of(area)].used = 0;
    }
    writers.count = copies.count = 0;
    is_full = false;
}

void collect_nursery(void)
{
    if (NURSERY_KEEPS_ALL)
        move_all_out();
    scan_registers();
    for (uint32_t i = 0; i < writers.count; i++)
        scan_writer(writers.list[i]);
    for (uint32_t i = 0; i < copies.count; i += 2)           /* which grows */
        scan_words(copies.list[i], copies.list[i + 1]);
    empty_nursery();
}

void collect_full_nursery(void)
{
    if (is_full)
        collect_nursery();
}
