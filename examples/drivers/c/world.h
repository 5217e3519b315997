/* The world at the beginning of an input. */
#ifndef WORLD_H
#define WORLD_H

void read_world(void);                          /* up to and with the line `trace` */

#endif
