/* Memory that the tests lend to a call, and the counts of what was expected. For C and for C++. */
#ifndef LENT_H
#define LENT_H

#include <stdint.h>
#include <stdio.h>
#include <stdlib.h>
#include <string.h>
#include <sys/mman.h>
#include <unistd.h>

/* So many bytes that end where a page begins which may not be touched: a byte too far, read or written, ends the program.
 * The bytes before them, back to the beginning of their page, are guards. */
typedef struct {
    uint8_t *map;   /* the pages, the forbidden one last */
    size_t guards;  /* bytes before those that are lent */
    uint8_t *bytes; /* those that are lent */
    size_t len;
} Lent;

static inline size_t page_size(void) { return (size_t)sysconf(_SC_PAGESIZE); }

/* What byte i is before a call: it differs from its neighbours, and is none that the engine writes. */
static inline uint8_t mark(size_t i) { return (uint8_t)(0x80 | (i * 37 & 0x7f)); }

static inline Lent lend(size_t len) {
    Lent lent;
    size_t page = page_size(), used = (len / page + 1) * page, i;
    void *map = mmap(NULL, used + page, PROT_READ | PROT_WRITE, MAP_PRIVATE | MAP_ANONYMOUS, -1, 0);
    if (map == MAP_FAILED || mprotect((uint8_t *)map + used, page, PROT_NONE) != 0) {
        perror("mmap");
        exit(2);
    }
    lent.map = (uint8_t *)map;
    lent.guards = used - len;
    lent.bytes = lent.map + lent.guards;
    lent.len = len;
    for (i = 0; i < used; i++)
        lent.map[i] = mark(i);
    return lent;
}

/* These bytes, which nothing may write to until they are given back. */
static inline Lent lend_text(const char *text, size_t len) {
    Lent lent = lend(len);
    if (len > 0)
        memcpy(lent.bytes, text, len);
    if (mprotect(lent.map, lent.guards + len, PROT_READ) != 0) {
        perror("mprotect");
        exit(2);
    }
    return lent;
}

/* So many numbers, aligned: they end where a page begins. */
static inline size_t *numbers_of(const Lent *lent) { return (size_t *)(void *)lent->bytes; }

/* Are the lent bytes from `from` on, and the guards, as they were? */
static inline int unchanged_from(const Lent *lent, size_t from) {
    size_t i;
    for (i = 0; i < lent->guards; i++)
        if (lent->map[i] != mark(i))
            return 0;
    for (i = from; i < lent->len; i++)
        if (lent->bytes[i] != mark(lent->guards + i))
            return 0;
    return 1;
}

/* Are the first `count` lent bytes 0, and is all else as it was? */
static inline int zero_before(const Lent *lent, size_t count) {
    size_t i;
    for (i = 0; i < count; i++)
        if (lent->bytes[i] != 0)
            return 0;
    return unchanged_from(lent, count);
}

static inline void give_back(Lent *lent) { munmap(lent->map, lent->guards + lent->len + page_size()); }

static size_t passed, failed;

static inline void expect(int holds, const char *test, const char *what, int line) {
    if (holds) {
        passed++;
    } else {
        failed++;
        printf("failed: %s: %s (line %d)\n", test, what, line);
    }
}

#define EXPECT(test, condition) expect((condition), test, #condition, __LINE__)

/* The last line; the exit status is 0 where nothing failed. */
static inline int counted(void) {
    printf("%zu passed, %zu failed\n", passed, failed);
    return failed == 0 ? 0 : 1;
}

#endif
