/* What failed beside the node: told once for each kind and reason, and how often at the end. */
#ifndef COUNTS_H
#define COUNTS_H

#include <stdint.h>

/* Something failed, for a reason of errno. */
void count_failure(const char *what, int reason);

/* Memory ran out in the node, which begins anew. */
void count_memory(void);

/* Tells how often each kind came, and how many datagrams the node never saw, by why. */
void tell_counts(uint64_t own, uint64_t zero, uint64_t group);

#endif
