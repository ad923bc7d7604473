/* Counts a program's requests for memory, and refuses one: that whose number REFUSED_REQUEST gives, none where it is 0 or missing; and likewise another, by REFUSED_TOO.
   From the first on REFUSED_COUNT are refused in a row, one where it is missing.
   Loaded before a program by LD_PRELOAD. The count stands, as eight bytes, in the file that REQUESTS_FILE names, however the program ends.

   Where REFUSE_EACH names a folder, no request is refused of the program itself: at each it forks a child of which this one is refused, and which goes on from there, so that
   one run and the ends of others do what as many whole runs would. REFUSED_AT_ONCE tells how many children run at a time. A child reads the rest of the program's standard
   input, which has to be a file, and writes to N.out and N.err. For each the file `ends` has a line: N, how the child ended, as wait tells it, how many requests it met, and
   how much the program had written before it. Only a program of one thread can be forked so.

   A program that was built with checks brings an allocator of its own, before which no library's comes. Its `malloc` is a jump of five bytes, which is led here; from here
   it goes on to where it led. Where that `malloc` is anything else, the program is ended, with status 97, rather than run without a refusal. Of such a program only the
   requests of its own code count: the C library makes threads by the same `malloc`, and those checks end a program that finds no memory for one. */
#define _GNU_SOURCE
#include <dlfcn.h>
#include <errno.h>
#include <fcntl.h>
#include <link.h>
#include <stdatomic.h>
#include <stdint.h>
#include <stdio.h>
#include <stdlib.h>
#include <string.h>
#include <sys/mman.h>
#include <sys/prctl.h>
#include <sys/wait.h>
#include <unistd.h>

static atomic_ulong own;
static atomic_ulong *requests = &own;
static unsigned long refused, refused_too, in_a_row;

/* A child of which a request was refused: its process, or 0 where there is none, the number of the request, how many it met, and what stood written before it. */
struct child {
    pid_t pid;
    unsigned long number;
    atomic_ulong requests;
    off_t written;
};

#define MOST_AT_ONCE 64
#define CHILD_SECONDS 60

/* Where the children's files go, if each request is refused in a child, and what is noted of their ends. */
static const char *each;
static int ends = -1;
static unsigned long at_once;
static struct child *children;
/* Whether a request is one that this library makes for itself. */
static int is_ours;

static void *(*real_malloc)(size_t);
static void *(*real_realloc)(void *, size_t);
static void *(*real_aligned_alloc)(size_t, size_t);
static int (*real_posix_memalign)(void **, size_t, size_t);

/* Where the program's code lies, if only its own requests count. */
static uintptr_t code_begins, code_ends;

/* The number that a variable gives, or 0. */
static unsigned long number_in(const char *name)
{
    const char *text = getenv(name);
    return text ? strtoul(text, NULL, 10) : 0;
}

/* A page of code near a place, from where a jump of five bytes reaches it, or NULL. */
static unsigned char *page_near(unsigned char *at)
{
    uintptr_t base = (uintptr_t)at & ~(uintptr_t)0xffff;
    for (uintptr_t step = 0x10000; step < 0x70000000; step += 0x10000) {
        void *page = mmap((void *)(base - step), 4096, PROT_READ | PROT_WRITE | PROT_EXEC, MAP_PRIVATE | MAP_ANONYMOUS | MAP_FIXED_NOREPLACE, -1, 0);
        if (page != MAP_FAILED)
            return page;
    }
    return NULL;
}

/* Leads a function that the program brings to one of this library. It answers where the program's own goes on, or NULL where the program brings none. */
static void *led_here(const char *name, void *here)
{
    unsigned char *at = dlsym(RTLD_DEFAULT, name);
    if (!at || at == here)
        return NULL;
    unsigned char *page = *at == 0xe9 ? page_near(at) : NULL;
    uintptr_t text = (uintptr_t)at & ~(uintptr_t)4095;
    if (!page || mprotect((void *)text, 8192, PROT_READ | PROT_WRITE | PROT_EXEC) != 0)
        _exit(97);
    int32_t distance;
    memcpy(&distance, at + 1, 4);
    void *own = at + 5 + distance;
    /* movabs $here, %r11; jmp *%r11 */
    memcpy(page, "\x49\xbb", 2);
    memcpy(page + 2, &here, 8);
    memcpy(page + 10, "\x41\xff\xe3", 3);
    distance = (int32_t)(page - (at + 5));
    memcpy(at + 1, &distance, 4);
    mprotect((void *)text, 8192, PROT_READ | PROT_EXEC);
    return own;
}

/* Notes where the code of the program lies, which is told before that of any library. */
static int note_code(struct dl_phdr_info *info, size_t size, void *unused)
{
    (void)size;
    (void)unused;
    for (int i = 0; i < info->dlpi_phnum; i++) {
        const ElfW(Phdr) *part = &info->dlpi_phdr[i];
        if (part->p_type == PT_LOAD && part->p_flags & PF_X) {
            code_begins = info->dlpi_addr + part->p_vaddr;
            code_ends = code_begins + part->p_memsz;
        }
    }
    return 1;
}

/* What a request goes on to: the program's own function, or else the next library's. */
static void *real(const char *name, void *here)
{
    void *own = led_here(name, here);
    if (own)
        dl_iterate_phdr(note_code, NULL);
    return own ? own : dlsym(RTLD_NEXT, name);
}

/* This library's functions by names that no other library's come before. */
#define OURS(name) extern __typeof(name) our_##name __attribute__((alias(#name), visibility("hidden")))
OURS(malloc);
OURS(realloc);
OURS(aligned_alloc);
OURS(posix_memalign);

/* Waits for a child, and notes how it ended. It answers the process, and gives how it ended. */
static pid_t wait_for_one(int *status)
{
    pid_t ended = wait(status);
    for (struct child *it = children; ended > 0 && it < children + at_once; it++)
        if (it->pid == ended) {
            it->pid = 0;
            dprintf(ends, "%lu %d %lu %ld\n", it->number, *status, atomic_load(&it->requests), (long)it->written);
            break;
        }
    return ended;
}

/* Makes ready for a child at each request, if that is asked for. */
static void begin_each(void)
{
    const char *folder = getenv("REFUSE_EACH");
    if (!folder)
        return;
    at_once = number_in("REFUSED_AT_ONCE");
    at_once = at_once < 1 ? 1 : at_once > MOST_AT_ONCE ? MOST_AT_ONCE : at_once;
    char path[4096];
    snprintf(path, sizeof path, "%s/ends", folder);
    ends = open(path, O_WRONLY | O_CREAT | O_TRUNC | O_APPEND, 0600);
    children = mmap(NULL, sizeof *children * MOST_AT_ONCE, PROT_READ | PROT_WRITE, MAP_SHARED | MAP_ANONYMOUS, -1, 0);
    if (ends < 0 || children == MAP_FAILED || prctl(PR_SET_CHILD_SUBREAPER, 1) != 0)
        _exit(98);
    each = folder;
    /* the program itself is a child too, since it may end before the others, and by ways that nobody hears of */
    pid_t program = fork(), ended;
    if (program == 0)
        return;
    is_ours = 1;
    int status, whole = 0x7f00;
    while ((ended = wait_for_one(&status)) > 0)
        whole = ended == program ? status : whole;
    _exit(WIFEXITED(whole) ? WEXITSTATUS(whole) : 127);
}

__attribute__((constructor)) static void begin(void)
{
    const char *path = getenv("REQUESTS_FILE");
    int file = path ? open(path, O_RDWR | O_CREAT | O_TRUNC, 0600) : -1;
    if (file >= 0 && ftruncate(file, sizeof own) == 0) {
        void *shared = mmap(NULL, sizeof own, PROT_READ | PROT_WRITE, MAP_SHARED, file, 0);
        if (shared != MAP_FAILED)
            requests = shared;
    }
    if (file >= 0)
        close(file);
    refused = number_in("REFUSED_REQUEST");
    refused_too = number_in("REFUSED_TOO");
    in_a_row = number_in("REFUSED_COUNT");
    real_malloc = real("malloc", our_malloc);
    real_realloc = real("realloc", our_realloc);
    real_aligned_alloc = real("aligned_alloc", our_aligned_alloc);
    real_posix_memalign = real("posix_memalign", our_posix_memalign);
    atomic_store(requests, 0);
    begin_each();
}

/* Gives a child a file of its own in the place of one that it has from the program, open at the same place. */
static void put_file(int to, const char *path, int flags, off_t at)
{
    int file = open(path, flags, 0600);
    if (file < 0 || lseek(file, at, SEEK_SET) < 0 || dup2(file, to) < 0)
        _exit(98);
    close(file);
}

/* Forks a child of which this request is refused. It answers whether this is the child. */
static int is_child_of(unsigned long number)
{
    struct child *free_one = NULL;
    while (!free_one) {
        for (struct child *it = children; it < children + at_once; it++)
            free_one = it->pid ? free_one : it;
        int status;
        if (!free_one && wait_for_one(&status) < 0)
            _exit(98);
    }
    atomic_store(&free_one->requests, number);
    free_one->number = number;
    free_one->written = lseek(1, 0, SEEK_CUR);
    off_t read = lseek(0, 0, SEEK_CUR);
    pid_t pid = fork();
    if (pid < 0)
        _exit(98);
    if (pid > 0) {
        free_one->pid = pid;
        return 0;
    }
    char path[4096];
    alarm(CHILD_SECONDS);
    put_file(0, "/proc/self/fd/0", O_RDONLY, read);
    snprintf(path, sizeof path, "%s/%lu.out", each, number);
    put_file(1, path, O_WRONLY | O_CREAT | O_TRUNC, 0);
    snprintf(path, sizeof path, "%s/%lu.err", each, number);
    put_file(2, path, O_WRONLY | O_CREAT | O_TRUNC, 0);
    requests = &free_one->requests;
    each = NULL;
    return 1;
}

/* Whether this request is one that is refused, by the place that it was made from. */
static int is_refused(void *from)
{
    if (is_ours || (code_ends && ((uintptr_t)from < code_begins || (uintptr_t)from >= code_ends)))
        return 0;
    unsigned long number = atomic_fetch_add(requests, 1) + 1;
    if (each) {
        is_ours = 1;
        int is_child = is_child_of(number);
        is_ours = 0;
        errno = ENOMEM;
        return is_child;
    }
    int in_row = refused && number >= refused && number - refused < (in_a_row ? in_a_row : 1);
    if (!in_row && number != refused_too)
        return 0;
    errno = ENOMEM;
    return 1;
}

void *malloc(size_t size)
{
    if (!real_malloc)
        real_malloc = dlsym(RTLD_NEXT, "malloc");
    return is_refused(__builtin_return_address(0)) ? NULL : real_malloc(size);
}

void *realloc(void *old, size_t size)
{
    if (!real_realloc)
        real_realloc = dlsym(RTLD_NEXT, "realloc");
    return is_refused(__builtin_return_address(0)) ? NULL : real_realloc(old, size);
}

void *aligned_alloc(size_t alignment, size_t size)
{
    if (!real_aligned_alloc)
        real_aligned_alloc = dlsym(RTLD_NEXT, "aligned_alloc");
    return is_refused(__builtin_return_address(0)) ? NULL : real_aligned_alloc(alignment, size);
}

int posix_memalign(void **place, size_t alignment, size_t size)
{
    if (!real_posix_memalign)
        real_posix_memalign = dlsym(RTLD_NEXT, "posix_memalign");
    return is_refused(__builtin_return_address(0)) ? ENOMEM : real_posix_memalign(place, alignment, size);
}
