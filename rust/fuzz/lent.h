#ifndef LENT_H
#define LENT_H

#include <stddef.h>
#include <stdint.h>

/* Memory between two pages that may not be touched. */
struct lent {
    uint8_t *start;
    size_t most;
};

/* `most` is rounded up to whole pages; ends the process where there is no memory. */
struct lent lend(size_t most);

/* The first or the last bytes of it. */
uint8_t *part(struct lent lent, size_t length, int at_end);

#endif
