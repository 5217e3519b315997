/* Turns a fuzzer's bytes into a world and commands, which the machine and the collector beside it answer.

   Every byte string is a whole input: the first bytes choose the world, and each command takes a byte for each of its
   operands, each modulo the number of what it chooses from; bytes that are missing are 0. What is fixed of each reply is
   compared at once. A command whose reply would be free (docs/ADAPTER.md) is preceded by what fixes it:

   - A reclaim is preceded by a scavenge without a limit. So both reclaim at the same command.
   - What was dropped while a collection ran may be kept by one collector and freed by another. After such a collection the
     charges of areas are free. While they are, an allocation that might be refused is preceded by a full collection in which
     nothing is dropped; after it the charges are fixed again.
   - In a world with capacities an allocation may begin a collection. It is finished at once, and a full one follows. */
#include "both.h"

#include <stdint.h>
#include <stdio.h>
#include <stdlib.h>
#include <string.h>

enum { MOST_AREAS = 4, MOST_OBJECTS = 7, MOST_COMMANDS = 300, MOST_LENGTH = 2047, MOST_ITEMS = 1024 };

static const char UNLIMITED[] = "4294967295";

/* ---- Bytes */

static struct {
    const uint8_t *at;
    size_t count;
} bytes;

static uint32_t byte_below(uint32_t below)
{
    if (bytes.count == 0)
        return 0;
    bytes.count--;
    return *bytes.at++ % below;
}

/* A size: mostly a small one, and now and then one up to a limit. */
static uint32_t size_up_to(uint32_t limit)
{
    uint32_t byte = byte_below(256);

    if (byte < 224)
        return byte % (limit < 11 ? limit + 1 : 12);
    return byte == 255 ? limit : (byte - 224) * (limit / 31);
}

/* ---- The world, and what is known of it */

static struct {
    uint32_t registers, levels, areas;
    uint32_t quota[MOST_AREAS];
    bool has_capacities;

    bool runs;                          /* a collection, which isn't reclaimed yet */
    bool is_full;                       /* that condemned all levels */
    bool dropped;                       /* something may have become garbage since its flip */
    bool fixed_charges;                 /* all collectors charge each area the same */
    uint32_t most[MOST_AREAS];          /* what an area is charged at most */
} now;

static uint32_t regions_wanted(void)
{
    uint32_t wanted = 0;

    for (uint32_t area = 0; area < now.areas; area++)
        wanted += (now.quota[area] + 1023) / 1024 + 2 * (now.levels + 1);
    return wanted < 5 ? 5 : wanted;
}

/* A value of an object line: nil, a number, or one of the objects up to this one. */
static char *write_value(char *end, uint32_t object)
{
    uint32_t kind = byte_below(4);

    if (kind == 0)
        return end + sprintf(end, " nil");
    return end + (kind == 1 ? sprintf(end, " 7") : sprintf(end, " #%u", byte_below(object + 1)));
}

/* The objects of the world, up to the first that doesn't fit its quota, and the roots that hold them. */
static char *write_objects(char *end)
{
    uint32_t count = byte_below(MOST_OBJECTS + 1), object = 0;

    for (; object < count; object++) {
        uint32_t area = byte_below(now.areas), fields = byte_below(4);
        bool is_cons = fields == 3;
        uint32_t charge = is_cons ? 2 : fields + 1;

        if (now.most[area] + charge > now.quota[area])
            break;
        now.most[area] += charge;
        end += is_cons ? sprintf(end, "cons a%u", area) : sprintf(end, "block a%u 7", area);
        for (uint32_t field = 0; field < (is_cons ? 2 : fields); field++)
            end = write_value(end, object);
        *end++ = '\n';
    }
    for (uint32_t at = 0; at < object && at < now.registers; at++)
        end += sprintf(end, "root %u #%u\n", at, at);
    return end;
}

static void open_world(void)
{
    static const uint32_t registers[] = {4, 1, 2, 3, 6, 8, 16, 256}, quotas[] = {60, 12, 30, 200, 500, 1000, 3000, 9000};
    static const char *const kinds[] = {"dynamic", "ephemeral", "static"};
    char text[2048], *end = text;
    uint32_t rate = byte_below(17);

    memset(&now, 0, sizeof now);
    now.registers = registers[byte_below(8)];
    now.levels = 1 + byte_below(6);
    now.has_capacities = byte_below(4) == 3;
    now.areas = 1 + byte_below(MOST_AREAS);
    now.fixed_charges = true;
    uint32_t chosen[MOST_AREAS];
    for (uint32_t area = 0; area < now.areas; area++) {
        chosen[area] = byte_below(24);
        now.quota[area] = quotas[chosen[area] / 3];
    }
    end += sprintf(end, "lispm-world %d\nspace %u 32 %u %u %u\n", now.has_capacities ? 2 : 1, regions_wanted(),
                   now.registers, now.levels, rate);
    for (uint32_t area = 0; area < now.areas; area++)
        end += sprintf(end, "area a%u %s %u\n", area, kinds[chosen[area] % 3], now.quota[area]);
    if (now.has_capacities) {
        end += sprintf(end, "capacity");
        for (uint32_t level = 1; level <= now.levels; level++)
            end += sprintf(end, " %u", 3 * byte_below(20));
        end += sprintf(end, "\n");
    }
    strcpy(write_objects(end), "trace\n");
    both_open(text);
}

/* ---- Collections */

/* What the areas are charged, if it is fixed. */
static void read_charges(void)
{
    const char *line;

    if (!now.fixed_charges)
        return;
    line = both_answer(ALL, "stats");
    for (uint32_t area = 0; area < now.areas; area++, line = strchr(line, '\n') + 1)
        sscanf(line, "area %*s %u", &now.most[area]);
}

/* Ends the collection that runs. */
static void finish(void)
{
    both_answer(ALL, "scavenge %s", UNLIMITED);
    both_answer(ALL, "reclaim");
    if (now.dropped)
        now.fixed_charges = false;
    else if (now.is_full)
        now.fixed_charges = true;
    now.runs = false;
    read_charges();
}

static void begin(const char *levels)
{
    both_answer(now.runs ? ALL : FIRST_WORD, "flip %s", levels);
    if (now.runs)
        return;
    now.runs = true;
    now.is_full = strcmp(levels, "full") == 0;
    now.dropped = false;
}

/* A full collection in which nothing is dropped. */
static void collect(void)
{
    if (now.runs)
        finish();
    begin("full");
    finish();
}

static void drop(void)
{
    now.dropped = true;
}

/* ---- Allocation */

/* Fixes the reply of an allocation of this number of words in an area, or in any area if that isn't known. */
static void before_allocation(uint32_t area, uint32_t words)
{
    bool fits = true;

    for (uint32_t at = 0; at < now.areas; at++)
        if (at == area || area == MOST_AREAS) {
            now.most[at] += words;
            fits = fits && now.most[at] <= now.quota[at];
        }
    if (!fits && !now.fixed_charges) {
        collect();
        before_allocation(area, words);
    }
}

/* An allocation may have begun a collection by itself. */
static void after_allocation(void)
{
    drop();
    if (!now.has_capacities || strcmp(both_answer(ALL, "scavenge %s", UNLIMITED), "not-flipped\n") == 0)
        return;
    both_answer(ALL, "reclaim");
    collect();
}

static uint32_t any_register(void)
{
    return byte_below(now.registers);
}

static uint32_t any_area(void)
{
    return byte_below(now.areas);
}

static void run_cons(void)
{
    uint32_t to = any_register(), area = any_area(), car = any_register();

    before_allocation(area, 2);
    both_answer(ALL, "cons %u a%u %u %u", to, area, car, any_register());
    after_allocation();
}

static void run_list(void)
{
    char items[MOST_ITEMS * 4 + 1], *end = items;
    uint32_t to = any_register(), area = any_area(), count = 1 + size_up_to(MOST_ITEMS - 1);

    for (uint32_t at = 0; at < count; at++)
        end += sprintf(end, " %u", at < 12 ? any_register() : at % now.registers);
    before_allocation(area, 3 * count);
    both_answer(ALL, "list %u a%u%s", to, area, items);
    after_allocation();
}

static void run_make(void)
{
    uint32_t to = any_register(), area = any_area(), code = byte_below(256) * 257, length = size_up_to(MOST_LENGTH);

    before_allocation(area, length + 1);
    both_answer(ALL, "make %u a%u %u %u", to, area, code, length);
    after_allocation();
}

static void run_grow(void)
{
    uint32_t block = any_register(), length = size_up_to(MOST_LENGTH), most = 0;

    if (sscanf(both_answer(ALL, "size %u", block), "%u", &most) == 1) {
        most = 2 * most + 1 < MOST_LENGTH ? 2 * most + 1 : MOST_LENGTH;
        before_allocation(MOST_AREAS, (most < length ? length : most) + 1);
    }
    both_answer(ALL, "grow %u %u", block, length);
    after_allocation();
}

/* ---- Reads and writes */

static void run_set(void)
{
    static const char *const values[] = {"nil", "0", "1", "-1", "2147483647", "-2147483648"};
    uint32_t to = any_register();

    both_answer(ALL, "set %u %s", to, values[byte_below(6)]);
    drop();
}

static void two_registers(const char *command)
{
    uint32_t first = any_register();

    both_answer(ALL, "%s %u %u", command, first, any_register());
    drop();
}

static void run_get(void)
{
    uint32_t to = any_register(), block = any_register();

    both_answer(ALL, "get %u %u %u", to, block, size_up_to(MOST_LENGTH));
    drop();
}

static void run_put(void)
{
    uint32_t block = any_register(), at = size_up_to(MOST_LENGTH);

    both_answer(ALL, "put %u %u %u", block, at, any_register());
    drop();
}

/* ---- Commands of the collector */

static void run_flip(void)
{
    char levels[2 * 6 + 1] = "", *end = levels;
    uint32_t set = byte_below(128);

    for (uint32_t level = 1; level <= now.levels; level++)
        if ((set >> level & 1) != 0)
            end += sprintf(end, "%s%u", end == levels ? "" : ",", level);
    begin(end == levels ? "full" : levels);
    if (now.has_capacities)
        collect();
    else if (byte_below(2) == 1)
        finish();
}

static void run_scavenge(void)
{
    uint32_t units = byte_below(256);

    both_answer(now.runs ? NOTHING : ALL, "scavenge %u", units);
}

static void run_reclaim(void)
{
    if (now.runs)
        finish();
    else
        both_answer(ALL, "reclaim");
}

static void run_command(void)
{
    static const char *const others[] = {"move", "car", "cdr", "rplaca", "rplacd", "eq"};
    uint32_t which = byte_below(32);

    switch (which) {
    case 0: case 1: case 2: run_cons(); break;
    case 3: case 4: run_list(); break;
    case 5: case 6: run_make(); break;
    case 7: case 8: run_grow(); break;
    case 9: case 10: run_get(); break;
    case 11: case 12: run_put(); break;
    case 13: case 14: run_flip(); break;
    case 15: case 16: run_reclaim(); break;
    case 17: run_scavenge(); break;
    case 18: run_set(); break;
    case 19: both_answer(ALL, "size %u", any_register()); break;
    case 20: both_answer(ALL, "page-out %u", byte_below(256)); break;
    case 21: both_answer(now.fixed_charges ? ALL : FIRST_WORD, "stats"); break;
    case 22: both_answer(ALL, "dump"); break;
    case 23: case 24: two_registers("rplacd"); break;
    case 25: two_registers("cdr"); break;
    default: two_registers(others[which - 26]); break;
    }
}

/* The objects as the registers reach them, and what they are charged, before and after a collection. */
static void look(void)
{
    both_answer(ALL, "dump");
    collect();
    both_answer(ALL, "dump");
}

int LLVMFuzzerTestOneInput(const uint8_t *data, size_t size);

int LLVMFuzzerTestOneInput(const uint8_t *data, size_t size)
{
    bytes.at = data;
    bytes.count = size;
    open_world();
    for (int count = 0; count < MOST_COMMANDS && bytes.count > 0; count++)
        run_command();
    look();
    both_close();
    return 0;
}
