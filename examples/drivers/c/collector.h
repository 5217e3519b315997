/* The collector, as the objects see it. */
#ifndef COLLECTOR_H
#define COLLECTOR_H

#include "memory.h"

/* The read barrier: if the word refers to an old object, the object moves; the word then has its new address. */
void settle(address at);

/* Moves an object; the cells that follow it in a list move with it. */
address copy_object(address from);

#endif
