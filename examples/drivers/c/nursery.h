/* A nursery: with NURSERY_WORDS above 0, new objects are placed in that many words of their area's own.  When these
   are full, the objects that are still reached move out, to the regions that they would be in without one.  No command sees these
   minor collections. */
#ifndef NURSERY_H
#define NURSERY_H

#include "memory.h"

#ifndef NURSERY_WORDS
#define NURSERY_WORDS 0                         /* at most REGION_WORDS */
#endif

/* Whether everything moves out, reached or not.  Flips of levels want that: a dead object that they don't condemn still
   holds what it refers to. */
#ifndef NURSERY_KEEPS_ALL
#define NURSERY_KEEPS_ALL 0
#endif

void open_nursery(void);
bool is_young(address at);

/* Words for a new object in the nursery; 0, which is no address there, if it doesn't fit.  If dead objects are dropped it
   has none while a collection runs, and none for a static area: what is born there isn't condemned, so what it refers to
   stays even if it dies. */
address place_young(uint32_t area, uint32_t count);

/* The write barrier: an object outside the nursery got a reference. */
void remember_writer(address object);

/* A copy of a young object was placed, and has to be scanned. */
void add_copy(address to, uint32_t count);

/* Moves out what is reached, if an object didn't fit since the last time; collect_nursery does it in any case. */
void collect_full_nursery(void);
void collect_nursery(void);

#endif
