/* Loaded before a program's own libraries (LD_PRELOAD), it refuses memory: of the calls of malloc and realloc that the
   program itself makes, the one whose number is REFUSED, counted from 1, finds none. Those of the system's libraries are
   let alone. How many there were is written to the file COUNTED, where it is named. As long as there is a file WHILE, where
   it is named, each call finds none. memory.py and crowd.py build it and run the program over it. */
#define _GNU_SOURCE
#include <fcntl.h>
#include <link.h>
#include <stdatomic.h>
#include <stddef.h>
#include <stdint.h>
#include <stdio.h>
#include <stdlib.h>
#include <sys/syscall.h>
#include <unistd.h>

extern void *__libc_malloc(size_t);
extern void *__libc_realloc(void *, size_t);

static uintptr_t first, last;
static atomic_ulong calls;
static unsigned long refused;
static const char *as_long_as;

/* The program is the first object, and its parts are where its own calls come from. */
static int range_of(struct dl_phdr_info *info, size_t size, void *unused)
{
    (void)size, (void)unused;
    first = UINTPTR_MAX;
    for (int i = 0; i < info->dlpi_phnum; i++) {
        if (info->dlpi_phdr[i].p_type != PT_LOAD)
            continue;
        uintptr_t start = info->dlpi_addr + info->dlpi_phdr[i].p_vaddr;
        uintptr_t end = start + info->dlpi_phdr[i].p_memsz;
        first = start < first ? start : first;
        last = end > last ? end : last;
    }
    return 1;
}

__attribute__((constructor)) static void begin(void)
{
    const char *number = getenv("REFUSED");
    refused = number ? strtoul(number, NULL, 10) : 0;
    as_long_as = getenv("WHILE");
    dl_iterate_phdr(range_of, NULL);
}

/* The program ends by this call. */
void _exit(int status)
{
    const char *name = getenv("COUNTED");
    int file = name ? open(name, O_WRONLY | O_CREAT | O_TRUNC, 0644) : -1;
    if (file >= 0)
        dprintf(file, "%lu\n", atomic_load(&calls));
    for (;;)
        syscall(SYS_exit_group, status);
}

static int is_refused(uintptr_t caller)
{
    if (caller < first || last <= caller)
        return 0;
    return atomic_fetch_add(&calls, 1) + 1 == refused || (as_long_as && access(as_long_as, F_OK) == 0);
}

void *malloc(size_t size)
{
    return is_refused((uintptr_t)__builtin_return_address(0)) ? NULL : __libc_malloc(size);
}

void *realloc(void *old, size_t size)
{
    return is_refused((uintptr_t)__builtin_return_address(0)) ? NULL : __libc_realloc(old, size);
}
