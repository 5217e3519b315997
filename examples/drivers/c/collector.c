/* An incremental copying collector after Baker.

   A flip makes the regions of some levels old, and moves what the registers refer to.  From then on the program never
   sees an old address: each word that it reads is settled first.  Units of work settle the words that may still have
   one: those outside that refer to a condemned level, and those that were copied.  When none remains, nothing refers
   to an old region, and a reclaim frees them all. */
#include "collector.h"
#include "nursery.h"

#include <string.h>

static struct {
    enum phase phase;
    uint32_t levels;                            /* that were condemned, as bits */
    struct slots outside;                       /* words outside old regions, not yet scanned */
    uint32_t region;                            /* the region that is scanned as a whole */
} cycle;

enum phase heap_phase(void)
{
    return cycle.phase;
}

/* ---- Copies */

/* What survives is promoted: a level up, from the last one to 0, and to 0 by a full flip. */
static uint32_t survivor_level(uint32_t level)
{
    if (cycle.levels == ALL_LEVELS || level == world.levels)
        return 0;
    return level + 1;
}

/* The charge goes with the object; what stays condemned leaves the account at the reclaim.  What moves out of the
   nursery is charged already. */
static address new_place(address from, uint32_t count, uint32_t charge)
{
    struct region *region = region_of(from);
    uint32_t level = survivor_level(region->level);

    if (is_young(from)) {
        address to = place(region->area, region->level, count);

        add_copy(to, count);
        return to;
    }
    accounts[region->area].condemned -= charge;
    accounts[region->area].objects[level] += charge;
    return place(region->area, level, count);
}

static void copy_words(address from, address to, uint32_t count)
{
    for (uint32_t i = 0; i < count; i++) {
        memory[to + i] = memory[from + i];
        memory[to + i].remembered = 0;           /* this belongs to the place, not to its content */
    }
}

/* A block or a pair. */
static address copy_whole(address from, uint32_t count)
{
    address to = new_place(from, count, charge_at(from));

    copy_words(from, to, count);
    forward(from, to);
    return to;
}

/* The cells of a list that are adjacent move together, so that they remain cells: up to the last cell of the list, or
   up to one that isn't followed by a cell. */
static uint32_t run_length(address from)
{
    uint32_t count = 1;

    while (memory[from + count - 1].cdr_code == NEXT && memory[from + count].tag != FORWARD
           && !is_pair(from + count))
        count++;
    return count;
}

/* If the list continues elsewhere after its last cell, this cell becomes a pair. */
static address copy_run(address from)
{
    uint32_t count = run_length(from);
    bool goes_on = memory[from + count - 1].cdr_code == NEXT;
    address to = new_place(from, count + goes_on, 3 * count), last = to + count - 1;

    copy_words(from, to, count);
    if (goes_on) {
        memory[last].cdr_code = PAIR;
        memory[last + 1] = (struct word){
            .tag = CONS_WORD, .cdr_code = NEXT, .bits = final_address(from + count)};
    }
    for (uint32_t i = 0; i < count; i++)
        forward(from + i, to + i);
    return to;
}

address copy_object(address from)
{
    if (is_block(from))
        return copy_whole(from, block_length(from) + 1);
    if (is_pair(from))
        return copy_whole(from, 2);
    return copy_run(from);
}

static address settled(address at)
{
    at = final_address(at);
    return is_old(at) ? copy_object(at) : at;
}

void settle(address at)
{
    struct word *word = &memory[at];

    if (word->tag != CONS_WORD && word->tag != BLOCK_WORD)
        return;
    word->bits = settled(word->bits);
    remember(at);
}

/* ---- A flip */

static bool is_condemned(uint32_t area, uint32_t level)
{
    return world.areas[area].kind != STATIC && (cycle.levels >> level & 1) != 0;
}

static void condemn_charges(void)
{
    for (uint32_t area = 0; area < world.area_count; area++)
        for (uint32_t level = 0; level <= world.levels; level++)
            if (is_condemned(area, level)) {
                struct account *account = &accounts[area];

                account->condemned += account->objects[level] + account->husks[level];
                account->objects[level] = account->husks[level] = 0;
                close_chain(area, level);
            }
}

/* Answers the pages to scan of regions that stay.  A full flip scans all static objects; else the remembered sets
   have what to scan. */
static uint32_t condemn_regions(void)
{
    uint32_t pages = 0;

    for (uint32_t i = 0; i < world.regions; i++) {
        struct region *region = &regions[i];

        if (region->state != LIVE)
            continue;
        if (is_condemned(region->area, region->level)) {
            region->state = OLD;
        } else if (cycle.levels == ALL_LEVELS) {
            region->scanned = 0;
            pages += (region->used + PAGE_WORDS - 1) / PAGE_WORDS;
        } else {
            region->scanned = region->used;
        }
    }
    return pages;
}

/* Takes the words of a remembered set that are to be scanned, drops those in old regions, and keeps the others.  A
   word may be in the sets of two condemned levels, and is taken once. */
static void take_slots(uint32_t level)
{
    struct slots *slots = &remembered[level];
    uint32_t kept = 0;

    for (uint32_t i = 0; i < slots->count; i++) {
        struct word *word = &memory[slots->list[i]];

        if (is_old(slots->list[i]))
            continue;
        if ((cycle.levels >> level & 1) == 0) {
            slots->list[kept++] = slots->list[i];
        } else if ((word->remembered & cycle.levels) != 0) {
            word->remembered &= (uint8_t)~cycle.levels;
            if (cycle.levels != ALL_LEVELS)
                add_slot(&cycle.outside, slots->list[i]);
        }
    }
    slots->count = kept;
}

static void settle_registers(void)
{
    for (uint32_t at = 0; at < world.registers; at++)
        if (registers[at].kind == CONS || registers[at].kind == BLOCK)
            registers[at].object = settled((address)registers[at].object);
}

uint32_t heap_flip(uint32_t levels)
{
    uint32_t pages;

    collect_nursery();
    cycle.phase = RUNNING;
    cycle.levels = levels;
    condemn_charges();
    pages = condemn_regions();
    for (uint32_t level = 1; level <= world.levels; level++)
        take_slots(level);
    settle_registers();
    return pages + (cycle.outside.count + PAGE_WORDS - 1) / PAGE_WORDS;
}

/* ---- The scan */

/* Finds the next word of a region that is not yet scanned.  Words of new objects are found, too: scanning them changes
   nothing, since the program has no old address to store in them. */
static bool next_in_regions(address *at)
{
    for (uint32_t i = 0; i < world.regions; i++) {
        struct region *region = &regions[cycle.region];

        if (region->state == LIVE && region->scanned < region->used) {
            *at = cycle.region * REGION_WORDS + region->scanned;
            return true;
        }
        cycle.region = (cycle.region + 1) % world.regions;
    }
    return false;
}

static bool scan_unit(void)
{
    address at;

    if (cycle.outside.count > 0) {
        settle(cycle.outside.list[--cycle.outside.count]);
        return true;
    }
    if (!next_in_regions(&at))
        return false;
    region_of(at)->scanned++;
    settle(at);
    return true;
}

void heap_scan(uint64_t units)
{
    address at;

    collect_full_nursery();
    if (cycle.phase != RUNNING)
        return;
    while (units > 0 && scan_unit())
        units--;
    if (cycle.outside.count == 0 && !next_in_regions(&at))
        cycle.phase = OVER;
}

/* ---- A reclaim */

void heap_reclaim(void)
{
    for (uint32_t i = 0; i < world.regions; i++)
        if (regions[i].state == OLD) {
            memset(&memory[i * REGION_WORDS], 0, regions[i].used * sizeof *memory);
            regions[i] = (struct region){.state = FREE};
        }
    for (uint32_t area = 0; area < world.area_count; area++)
        accounts[area].condemned = 0;
    cycle.phase = IDLE;
}
