/* sized_peer NAME TIMES: makes one of libatomic's own functions, such as __atomic_fetch_add_8, so many times on one object
 * of its size that begins with 0, and writes the object's high and low 64 bits. The function is looked up in the library,
 * so that the compiler doesn't put instructions of its own in place of the call. Ends with 3 where the library hasn't it.
 * sized_peer open CELLS: lays that many cells out, one every 16 bytes, of each size in turn, and tests that each stands at
 * a multiple of its size after the one before, within the bytes. */
#define _GNU_SOURCE
#include <dlfcn.h>
#include <stdbool.h>
#include <stdint.h>
#include <stdio.h>
#include <stdlib.h>
#include <string.h>

typedef unsigned __int128 uint128_t;

enum { ORDER = 5 }; /* memory_order_seq_cst */

/* The loops of a size: the operand is 3, and an exchange that compares changes 0 to 0, so that it never fails. */
#define LOOPS(T)                                                                                          \
    static uint128_t turns_##T(void *function, const char *words, uint64_t times) {                       \
        static _Alignas(64) T object = 0;                                                                 \
        if (!strncmp(words, "load", 4)) {                                                                 \
            T (*load)(const volatile void *, int) = function;                                             \
            for (uint64_t i = 0; i < times; i++) load(&object, ORDER);                                    \
        } else if (!strncmp(words, "store", 5)) {                                                         \
            void (*store)(volatile void *, T, int) = function;                                            \
            for (uint64_t i = 0; i < times; i++) store(&object, 3, ORDER);                                \
        } else if (!strncmp(words, "compare_exchange", 16)) {                                             \
            bool (*compare)(volatile void *, void *, T, int, int) = function;                             \
            for (uint64_t i = 0; i < times; i++) {                                                        \
                T expected = 0;                                                                           \
                compare(&object, &expected, 0, ORDER, ORDER);                                             \
            }                                                                                             \
        } else {                                                                                          \
            T (*change)(volatile void *, T, int) = function;                                              \
            for (uint64_t i = 0; i < times; i++) change(&object, 3, ORDER);                               \
        }                                                                                                 \
        return object;                                                                                    \
    }

LOOPS(uint8_t)
LOOPS(uint64_t)
LOOPS(uint128_t)

struct cell {
    uint64_t address;
    uint32_t size;
    uint128_t start;
};

/* How many cells were opened. */
static uint64_t open_cells(uint64_t count) {
    struct cell *cells = calloc(count, sizeof *cells);
    unsigned char *bytes = calloc(count, 16);
    if (!cells || !bytes) return 0;
    uint64_t after = 0;
    for (uint64_t i = 0; i < count; i++) cells[i] = (struct cell){16 * i, 1u << (i % 5), 0};
    for (uint64_t i = 0; i < count; i++) {
        struct cell cell = cells[i];
        if (cell.address % cell.size || cell.address < after || cell.address + cell.size > 16 * count) return i;
        memcpy(bytes + cell.address, &cell.start, cell.size);
        after = cell.address + cell.size;
    }
    return count;
}

int main(int count, char **words) {
    if (count != 3) return 2;
    if (!strcmp(words[1], "open")) {
        printf("0 %llu\n", (unsigned long long)open_cells(strtoull(words[2], NULL, 10)));
        return 0;
    }
    void *library = dlopen("libatomic.so.1", RTLD_NOW);
    void *function = library ? dlsym(library, words[1]) : NULL;
    if (!function) return 3;
    const char *operation = words[1] + strlen("__atomic_");
    const char *size = strrchr(words[1], '_');
    uint64_t times = strtoull(words[2], NULL, 10);
    uint128_t last;
    if (!strcmp(size, "_1")) last = turns_uint8_t(function, operation, times);
    else if (!strcmp(size, "_8")) last = turns_uint64_t(function, operation, times);
    else if (!strcmp(size, "_16")) last = turns_uint128_t(function, operation, times);
    else return 2;
    printf("%llu %llu\n", (unsigned long long)(last >> 64), (unsigned long long)last);
    return 0;
}
