/* Counts the allocations of calls, and refuses some. Link with -Wl,--wrap=malloc,--wrap=realloc,--wrap=free. */
#ifndef BINDINGS_ALLOCATIONS_H
#define BINDINGS_ALLOCATIONS_H

extern int counts;          /* whether allocations are counted and refused */
extern long blocks;         /* allocated blocks less freed ones */
extern long asked;          /* allocations so far; to be set to 0 before a call */
extern long first_refused;  /* the number of the allocation that is refused, from 1; 0 if none is */
extern int all_from_first;  /* whether all after it are refused too */

#endif
