/* The functions of this program by name, from its own symbol table. */
#ifndef BENCH_SYMBOLS_H
#define BENCH_SYMBOLS_H

#include <stdbool.h>
#include <stddef.h>
#include <stdint.h>

struct symbol {
    uint64_t start, size;
    const char *name;
};

/* False when the program has no symbol table. */
bool symbols_read(void);

/* The function around the address, or one that says so. */
const struct symbol *symbols_at(uint64_t address);

const struct symbol *symbols_list(size_t *count);

/* The start of the function with this name, or 0. */
uint64_t symbols_find(const char *name);

#endif
