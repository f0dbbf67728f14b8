// One piece of memory mapped twice: writable for this file alone, and between two forbidden pages for whoever is tested.
#define _GNU_SOURCE
#include "guarded.h"

#include <stdio.h>
#include <stdlib.h>
#include <string.h>
#include <sys/mman.h>
#include <unistd.h>

static void stop(const char *what)
{
    perror(what);
    exit(2);
}

void guarded_open(struct guarded *memory, enum access access)
{
    size_t page = (size_t)sysconf(_SC_PAGESIZE);
    int file = memfd_create("lent", 0);

    if (file < 0 || ftruncate(file, GUARDED_BYTES) != 0)
        stop("memfd_create");
    memory->inside = mmap(NULL, GUARDED_BYTES, PROT_READ | PROT_WRITE, MAP_SHARED, file, 0);
    uint8_t *all = mmap(NULL, GUARDED_BYTES + 2 * page, PROT_NONE, MAP_PRIVATE | MAP_ANONYMOUS, -1, 0);
    if (memory->inside == MAP_FAILED || all == MAP_FAILED)
        stop("mmap");
    int allowed = access == READ_ONLY ? PROT_READ : PROT_READ | PROT_WRITE;
    memory->lent = mmap(all + page, GUARDED_BYTES, allowed, MAP_SHARED | MAP_FIXED, file, 0);
    if (memory->lent == MAP_FAILED)
        stop("mmap");
}

uint8_t *guarded_put(const struct guarded *memory, enum side side, const void *bytes, size_t length)
{
    size_t at = side == AT_THE_START ? 0 : GUARDED_BYTES - length;

    if (length > 0)
        memcpy(memory->inside + at, bytes, length);
    return memory->lent + at;
}
