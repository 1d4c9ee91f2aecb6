// Tries heap.c on a machine, with a memory that grows page by page as a module's does, up to a limit: blocks do not overlap and
// keep their bytes, and where memory runs out the call says so and all else stays. Prints how often it was refused.
#include <stdio.h>
#include <stdlib.h>
#include <string.h>

#define MOST_PAGES 160
static char *base;
static unsigned long pages_now = 1;

static unsigned long fake_grow(unsigned long pages) {
    if (pages > MOST_PAGES - pages_now) return (unsigned long)-1;
    unsigned long before = pages_now;
    pages_now += pages;
    return before;
}

// A page's number, times 65536, is an address: so the numbers begin where the memory does.
#define __builtin_wasm_memory_grow(memory, pages) (grown(pages))
static unsigned long grown(unsigned long pages) {
    unsigned long before = fake_grow(pages);
    return before == (unsigned long)-1 ? before : (unsigned long)base / 65536 + before;
}

#include "../heap.c"

enum { BLOCKS = 300, CALLS = 400000 };
static struct { unsigned char *bytes; unsigned long size; unsigned char mark; } kept[BLOCKS];
static unsigned long dice = 88172645463325252ul;

static unsigned long roll(unsigned long below) {
    dice ^= dice << 13, dice ^= dice >> 7, dice ^= dice << 17;
    return dice % below;
}

static void fail(const char *what) {
    printf("FAILED %s\n", what);
    exit(1);
}

static void look(int i, unsigned long size) {
    for (unsigned long k = 0; k < size; k++)
        if (kept[i].bytes[k] != kept[i].mark) fail("a block lost a byte");
}

int main(void) {
    if (posix_memalign((void **)&base, 65536, MOST_PAGES * 65536ul)) return 2;
    unsigned long refused = 0;
    for (int call = 0; call < CALLS; call++) {
        int i = (int)roll(BLOCKS);
        unsigned long size = roll(8) ? roll(200) + 1 : roll(64) ? roll(100000) + 1 : roll(4000000) + 1;
        if (!kept[i].bytes) {
            struct tried answer = rattle_alloc(size, 16);
            if (!answer.p) fail("a pointer is null");
            if (!answer.ok) { refused++; continue; }
            kept[i].bytes = answer.p;
        } else if (roll(3)) {
            look(i, kept[i].size);
            if (!roll(2)) {
                rattle_dealloc(kept[i].bytes);
                kept[i].bytes = 0;
                continue;
            }
            struct tried answer = rattle_realloc(kept[i].bytes, kept[i].size, size, 16);
            if (!answer.p) fail("a pointer is null");
            if (!answer.ok) { refused++; look(i, kept[i].size); continue; }
            kept[i].bytes = answer.p;
            look(i, size < kept[i].size ? size : kept[i].size);
        } else {
            continue;
        }
        if ((unsigned long)kept[i].bytes % 16) fail("a block is not aligned");
        if ((char *)kept[i].bytes < base || (char *)kept[i].bytes + size > base + pages_now * 65536) fail("a block is outside the memory");
        kept[i].size = size;
        kept[i].mark = (unsigned char)(call % 251 + 1);
        memset(kept[i].bytes, kept[i].mark, size);
    }
    if (rattle_alloc(-1ul, 1).ok || rattle_alloc(1ul << 48, 1).ok) fail("what no memory holds was given");
    printf("%lu refused of %d\n", refused, CALLS);
    return refused == 0;
}
