/* Words, regions and remembered sets. */
#include "memory.h"
#include "memory_or_die.h"
#include "nursery.h"

struct word *memory;
struct region regions[MOST_REGIONS + MOST_AREAS];
struct account accounts[MOST_AREAS];
struct slots remembered[LEVEL_COUNT];

/* The region, plus 1, to which an area's new objects of a level are added; 0 if there is none. */
static uint32_t last_region[MOST_AREAS][LEVEL_COUNT];

void heap_open(void)
{
    memory = zeroed((size_t)(world.regions + world.area_count) * REGION_WORDS, sizeof *memory);
    open_nursery();
}

struct region *region_of(address at)
{
    return &regions[at / REGION_WORDS];
}

bool is_old(address at)
{
    return region_of(at)->state == OLD;
}

/* The rule for the room of areas sees to it that some region is free. */
static uint32_t open_region(uint32_t area, uint32_t level)
{
    for (uint32_t i = 0; i < world.regions; i++)
        if (regions[i].state == FREE) {
            regions[i] = (struct region){.state = LIVE, .area = area, .level = level};
            last_region[area][level] = i + 1;
            return i;
        }
    fputs("no region is free\n", stderr);
    abort();
}

address place(uint32_t area, uint32_t level, uint32_t count)
{
    uint32_t last = last_region[area][level], i;
    address at;

    if (last != 0 && regions[last - 1].used + count <= REGION_WORDS)
        i = last - 1;
    else
        i = open_region(area, level);
    at = i * REGION_WORDS + regions[i].used;
    regions[i].used += count;
    return at;
}

void close_chain(uint32_t area, uint32_t level)
{
    last_region[area][level] = 0;
}

/* An object may have gone on more than once: a cell became a pair, and then the pair was copied. */
address final_address(address at)
{
    while (memory[at].tag == FORWARD)
        at = memory[at].bits;
    return at;
}

bool is_block(address at)
{
    return memory[at].tag == HEADER;
}

bool is_pair(address at)
{
    return memory[at].cdr_code == PAIR;
}

uint32_t block_length(address block)
{
    return memory[block].bits % LENGTHS;
}

uint32_t charge_at(address at)
{
    if (is_block(at))
        return block_length(at) + 1;
    return is_pair(at) && memory[at + 1].cdr_code == SECOND ? 2 : 3;
}

struct value value_of(struct word word)
{
    switch (word.tag) {
    case NUMBER_WORD:
        return (struct value){.kind = NUMBER, .number = (int32_t)word.bits};
    case CONS_WORD:
        return (struct value){.kind = CONS, .object = word.bits};
    case BLOCK_WORD:
        return (struct value){.kind = BLOCK, .object = word.bits};
    default:
        return (struct value){.kind = NIL};
    }
}

void write_word(address at, struct value value, enum cdr_code code)
{
    static const uint8_t tags[] = {[NIL] = NIL_WORD, [NUMBER] = NUMBER_WORD, [CONS] = CONS_WORD, [BLOCK] = BLOCK_WORD};
    struct word *word = &memory[at];

    word->tag = tags[value.kind];
    word->cdr_code = code;
    word->bits = value.kind == NIL ? 0 : value.kind == NUMBER ? (uint32_t)value.number : (uint32_t)value.object;
    remember(at);
}

void forward(address from, address to)
{
    memory[from].tag = FORWARD;
    memory[from].bits = to;
}

void add_slot(struct slots *slots, address at)
{
    if (slots->count == slots->room) {
        slots->room = 2 * slots->room + 64;
        slots->list = resized(slots->list, slots->room * sizeof *slots->list);
    }
    slots->list[slots->count++] = at;
}

/* The write barrier.  A word that refers to an object of another level than its own has to be found when that level
   is condemned without its own.  Level 0 is only condemned with all others. */
void remember(address at)
{
    struct word *word = &memory[at];
    uint32_t level;

    if ((word->tag != CONS_WORD && word->tag != BLOCK_WORD) || is_young(at))
        return;
    level = region_of(word->bits)->level;
    if (level == 0 || level == region_of(at)->level || (word->remembered >> level & 1) != 0)
        return;
    word->remembered |= (uint8_t)(1u << level);
    add_slot(&remembered[level], at);
}
