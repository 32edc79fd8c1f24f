/* Loaded before a program's own libraries (LD_PRELOAD), it counts the memory that the program asks for: each size of
   LEAST bytes or more by which the program itself calls malloc or realloc is a line of the file TAKEN, in their order,
   and its last line has the sum of all sizes. taken.py builds it and runs the program over it. */
#define _GNU_SOURCE
#include <fcntl.h>
#include <stddef.h>
#include <stdlib.h>
#include <sys/syscall.h>
#include <unistd.h>
#include <stdio.h>

extern void *__libc_malloc(size_t);
extern void *__libc_realloc(void *, size_t);

static size_t least, sum, sizes[65536];
static unsigned count;

__attribute__((constructor)) static void begin(void)
{
    const char *number = getenv("LEAST");
    least = number ? strtoul(number, NULL, 10) : 1;
}

/* The program ends by this call. */
void _exit(int status)
{
    const char *name = getenv("TAKEN");
    int file = name ? open(name, O_WRONLY | O_CREAT | O_TRUNC, 0644) : -1;
    for (unsigned i = 0; file >= 0 && i < count; i++)
        dprintf(file, "%zu\n", sizes[i]);
    if (file >= 0)
        dprintf(file, "%zu\n", sum);
    for (;;)
        syscall(SYS_exit_group, status);
}

static size_t noted(size_t size)
{
    sum += size;
    if (size >= least && count < sizeof sizes / sizeof *sizes)
        sizes[count++] = size;
    return size;
}

void *malloc(size_t size)
{
    return __libc_malloc(noted(size));
}

void *realloc(void *old, size_t size)
{
    return __libc_realloc(old, noted(size));
}
