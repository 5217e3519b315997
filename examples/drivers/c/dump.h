/* A dump: the objects that the registers reach, written as a world of format 2. */
#ifndef DUMP_H
#define DUMP_H

void write_dump(void);

#endif
