#include "lent.h"

#include <stdio.h>
#include <stdlib.h>
#include <sys/mman.h>
#include <unistd.h>

struct lent lend(size_t most)
{
    size_t page = (size_t)sysconf(_SC_PAGESIZE);
    size_t inside = (most + page - 1) / page * page;
    uint8_t *all = mmap(NULL, inside + 2 * page, PROT_NONE, MAP_PRIVATE | MAP_ANONYMOUS, -1, 0);
    if (all == MAP_FAILED || mprotect(all + page, inside, PROT_READ | PROT_WRITE) != 0) {
        perror("memory for the target");
        exit(2);
    }
    return (struct lent){all + page, inside};
}

uint8_t *part(struct lent lent, size_t length, int at_end)
{
    return at_end ? lent.start + lent.most - length : lent.start;
}
