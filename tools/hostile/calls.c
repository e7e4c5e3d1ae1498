// Lets calls of a program fail: a library that tools/hostile/calls preloads. It stands in for what the programs take of the C library to ask for
// memory, to read and to write (docs/inside/TRUST.md lists it). CALLS has six numbers: which calls fail (0 none, 1 requests for memory,
// 2 reads, 3 writes), the first and the last of them that does, counted from 1, by which errno (0: it answers 0), and how many bytes
// a read and a write take at most. TOLD names a file of counts, which is kept up to date whatever ends the program.
#define _GNU_SOURCE
#include <errno.h>
#include <fcntl.h>
#include <stddef.h>
#include <stdint.h>
#include <stdlib.h>
#include <sys/mman.h>
#include <sys/syscall.h>
#include <unistd.h>

enum { NONE, MEMORY, READS, WRITES, KINDS };

// How many calls of each kind were made, how many were made to fail, and how many bytes were read and written.
struct counts { uint64_t calls[KINDS], failed, bytes[KINDS]; };

static struct counts before_main, *told = &before_main;
static long failing, first, last, error, most[KINDS];

void *__libc_malloc(size_t);
void *__libc_calloc(size_t, size_t);
void *__libc_realloc(void *, size_t);

__attribute__((constructor)) static void begin(void)
{
    long *numbers[] = {&failing, &first, &last, &error, &most[READS], &most[WRITES]};
    char *given = getenv("CALLS");
    const char *name = getenv("TOLD");
    int file = name ? open(name, O_RDWR) : -1;
    if (!given || file < 0) _exit(99);
    for (int i = 0; i < 6; i++) *numbers[i] = strtol(given, &given, 10);
    told = mmap(NULL, sizeof *told, PROT_READ | PROT_WRITE, MAP_SHARED, file, 0);
    if (told == MAP_FAILED) _exit(99);
    close(file);
}

// Counts a call; does it fail?
static int fails(int kind)
{
    uint64_t number = ++told->calls[kind];
    if (kind != failing || number < (uint64_t)first || number > (uint64_t)last) return 0;
    told->failed++;
    return 1;
}

static void *no_memory(void)
{
    errno = ENOMEM;
    return NULL;
}

void *malloc(size_t size) { return fails(MEMORY) ? no_memory() : __libc_malloc(size); }
void *calloc(size_t count, size_t size) { return fails(MEMORY) ? no_memory() : __libc_calloc(count, size); }
void *realloc(void *old, size_t size) { return fails(MEMORY) ? no_memory() : __libc_realloc(old, size); }

static ssize_t transfer(int kind, long call, int file, uintptr_t bytes, size_t count)
{
    if (fails(kind)) {
        errno = (int)error;
        return error ? -1 : 0;
    }
    ssize_t done = syscall(call, file, bytes, count < (size_t)most[kind] ? count : (size_t)most[kind]);
    if (done > 0) told->bytes[kind] += (uint64_t)done;
    return done;
}

ssize_t read(int file, void *bytes, size_t count) { return transfer(READS, SYS_read, file, (uintptr_t)bytes, count); }
ssize_t write(int file, const void *bytes, size_t count) { return transfer(WRITES, SYS_write, file, (uintptr_t)bytes, count); }
ssize_t __write(int file, const void *bytes, size_t count) { return transfer(WRITES, SYS_write, file, (uintptr_t)bytes, count); }
