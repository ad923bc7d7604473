/* Counts the memory that a program has asked for and not given back. The most that it was at any time stands, as eight bytes, in the file that MEMORY_FILE names, however the program ends.
   Loaded before a program by LD_PRELOAD. What a block counts is what the C library has set aside for it, at most 24 bytes more than was asked for. */
#define _GNU_SOURCE
#include <dlfcn.h>
#include <fcntl.h>
#include <malloc.h>
#include <stdatomic.h>
#include <stdlib.h>
#include <sys/mman.h>
#include <unistd.h>

static atomic_long held, own;
static atomic_long *most = &own;

static void *(*real_malloc)(size_t);
static void *(*real_calloc)(size_t, size_t);
static void *(*real_realloc)(void *, size_t);
static void (*real_free)(void *);
static void *(*real_aligned_alloc)(size_t, size_t);
static int (*real_posix_memalign)(void **, size_t, size_t);

/* What dlsym asks for before the C library's calloc is known. */
static char early[4096];
static size_t early_used;

static int is_early(void *at)
{
    return (char *)at >= early && (char *)at < early + sizeof early;
}

__attribute__((constructor)) static void find(void)
{
    if (real_malloc)
        return;
    real_calloc = dlsym(RTLD_NEXT, "calloc");
    real_realloc = dlsym(RTLD_NEXT, "realloc");
    real_free = dlsym(RTLD_NEXT, "free");
    real_aligned_alloc = dlsym(RTLD_NEXT, "aligned_alloc");
    real_posix_memalign = dlsym(RTLD_NEXT, "posix_memalign");
    real_malloc = dlsym(RTLD_NEXT, "malloc");
    const char *path = getenv("MEMORY_FILE");
    int file = path ? open(path, O_RDWR | O_CREAT | O_TRUNC, 0644) : -1;
    if (file < 0 || ftruncate(file, sizeof *most))
        return;
    void *shared = mmap(NULL, sizeof *most, PROT_READ | PROT_WRITE, MAP_SHARED, file, 0);
    if (shared != MAP_FAILED)
        most = shared;
    close(file);
}

/* Notes that a block is held. */
static void *got(void *block)
{
    if (block) {
        long size = (long)malloc_usable_size(block), now = atomic_fetch_add(&held, size) + size;
        for (long before = atomic_load(most); before < now && !atomic_compare_exchange_weak(most, &before, now);)
            ;
    }
    return block;
}

void *malloc(size_t size)
{
    find();
    return got(real_malloc(size));
}

void *calloc(size_t count, size_t size)
{
    if (!real_calloc) {
        size_t needed = (count * size + 15) & ~(size_t)15;
        if (early_used + needed > sizeof early)
            return NULL;
        early_used += needed;
        return early + early_used - needed;
    }
    return got(real_calloc(count, size));
}

void free(void *block)
{
    if (!block || is_early(block))
        return;
    find();
    atomic_fetch_sub(&held, (long)malloc_usable_size(block));
    real_free(block);
}

void *realloc(void *block, size_t size)
{
    if (!block || is_early(block))
        return malloc(size);
    find();
    size_t before = malloc_usable_size(block);
    void *grown = real_realloc(block, size);
    if (grown || !size)
        atomic_fetch_sub(&held, (long)before);
    return got(grown);
}

void *aligned_alloc(size_t alignment, size_t size)
{
    find();
    return got(real_aligned_alloc(alignment, size));
}

int posix_memalign(void **block, size_t alignment, size_t size)
{
    find();
    int status = real_posix_memalign(block, alignment, size);
    if (!status)
        got(*block);
    return status;
}
