#define _XOPEN_SOURCE 700
#include "symbols.h"

#include <elf.h>
#include <fcntl.h>
#include <string.h>
#include <sys/mman.h>
#include <sys/stat.h>
#include <unistd.h>

enum { SYMBOLS = 16384 };

static struct symbol symbols[SYMBOLS];
static size_t symbol_count;
static const struct symbol unknown = {0, 0, "(no symbol)"};

/* The program's file stays mapped, because the names are read from it later. */
static const uint8_t *map_program(void)
{
    struct stat status;
    int file = open("/proc/self/exe", O_RDONLY);
    void *image;

    if (file < 0 || fstat(file, &status) != 0)
        return NULL;
    image = mmap(NULL, (size_t)status.st_size, PROT_READ, MAP_PRIVATE, file, 0);
    close(file);
    return image == MAP_FAILED ? NULL : image;
}

static void add_functions(const Elf64_Sym *table, size_t count, const char *names)
{
    for (size_t i = 0; i < count && symbol_count < SYMBOLS; i++)
        if (ELF64_ST_TYPE(table[i].st_info) == STT_FUNC && table[i].st_size > 0)
            symbols[symbol_count++] = (struct symbol){table[i].st_value, table[i].st_size, names + table[i].st_name};
}

bool symbols_read(void)
{
    const uint8_t *image = map_program();
    const Elf64_Ehdr *header = (const void *)image;
    const Elf64_Shdr *sections;

    if (image == NULL)
        return false;
    sections = (const void *)(image + header->e_shoff);
    for (size_t i = 0; i < header->e_shnum; i++)
        if (sections[i].sh_type == SHT_SYMTAB)
            add_functions((const void *)(image + sections[i].sh_offset), sections[i].sh_size / sizeof(Elf64_Sym),
                          (const char *)(image + sections[sections[i].sh_link].sh_offset));
    return symbol_count > 0;
}

const struct symbol *symbols_at(uint64_t address)
{
    for (size_t i = 0; i < symbol_count; i++)
        if (address - symbols[i].start < symbols[i].size)
            return &symbols[i];
    return &unknown;
}

const struct symbol *symbols_list(size_t *count)
{
    *count = symbol_count;
    return symbols;
}

uint64_t symbols_find(const char *name)
{
    for (size_t i = 0; i < symbol_count; i++)
        if (strcmp(symbols[i].name, name) == 0)
            return symbols[i].start;
    return 0;
}
