/* Indexes that have few of their pairs left, whose memory comes back. */
#ifndef TRIMS_H
#define TRIMS_H

struct opened;

/* How many have given memory back. */
extern unsigned long long trim_count;

/* Has the map of a key copied, if it has few of its pairs left: a portion now and then, between commands. Once all are copied, the
 * key leads to the copy. */
void trim(struct opened *it);

#endif
