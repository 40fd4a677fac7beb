/* A page that a plugin, outside the emulator, and a program, inside it, share: both map one file. So
 * the program reads its own figures while it runs, and no output has to be joined afterwards. */
#ifndef BENCH_PAGE_H
#define BENCH_PAGE_H

#include <fcntl.h>
#include <stddef.h>
#include <stdint.h>
#include <string.h>
#include <sys/mman.h>
#include <unistd.h>

/* Every instruction executed since the start; the program takes differences. */
struct count_page {
    uint64_t instructions;
};

/* The program empties the hashes and sets recording; the plugin adds to them while it is set. */
struct trace_page {
    uint64_t recording;
    uint64_t code, accesses;             /* hashes: of instructions in order, of loads and stores in order */
    uint64_t code_length, access_length; /* how many went into each hash */
};

/* Null if the file cannot be made or mapped. The plugin makes the page new, so that no run sees an old one. */
static inline void *page_map(const char *path, size_t size, int make_new)
{
    int file = open(path, O_RDWR | (make_new ? O_CREAT | O_TRUNC : 0), 0600);
    void *page;

    if (file < 0)
        return NULL;
    if (make_new && ftruncate(file, (off_t)size) != 0) {
        close(file);
        return NULL;
    }
    page = mmap(NULL, size, PROT_READ | PROT_WRITE, MAP_SHARED, file, 0);
    close(file);
    return page == MAP_FAILED ? NULL : page;
}

/* The page that a plugin's one word names, as page=PATH. */
static inline void *page_named(int count, char **words, size_t size)
{
    if (count != 1 || strncmp(words[0], "page=", 5) != 0)
        return NULL;
    return page_map(words[0] + 5, size, 1);
}

#endif
