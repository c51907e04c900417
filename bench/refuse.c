/* Refuses requests for memory of the program that it is preloaded into.
 *
 * KCORE_REFUSE=N refuses the Nth call of malloc, calloc or realloc that the program itself makes, from 1; with N+ all later ones too.
 * Calls that libraries make, as the C library's own where a thread starts, are neither counted nor refused. KCORE_REFUSE_REPORT names a
 * file of 16 bytes, in which two numbers are kept: how many requests there were, and how many of them were refused. It is mapped, so it
 * tells them however the program ends.
 *
 * cc -O2 -shared -fPIC refuse.c -o refuse.so -ldl
 */
#define _GNU_SOURCE
#include <dlfcn.h>
#include <errno.h>
#include <fcntl.h>
#include <link.h>
#include <stdatomic.h>
#include <stdint.h>
#include <stdlib.h>
#include <string.h>
#include <sys/mman.h>
#include <unistd.h>

struct report {
    _Atomic uint64_t requests;
    _Atomic uint64_t refused;
};

static struct report unread;
static struct report *report = &unread;
static uint64_t first_refused;
static int later_too;
static uintptr_t code_begin, code_end;

static void *(*next_malloc)(size_t);
static void *(*next_calloc)(size_t, size_t);
static void *(*next_realloc)(void *, size_t);

/* The first object is the program: its code. */
static int note_program(struct dl_phdr_info *object, size_t size, void *unused)
{
    (void)size;
    (void)unused;
    for (int i = 0; i < object->dlpi_phnum; i++) {
        const ElfW(Phdr) *part = &object->dlpi_phdr[i];
        if (part->p_type == PT_LOAD && (part->p_flags & PF_X)) {
            uintptr_t begin = object->dlpi_addr + part->p_vaddr;
            if (code_begin == 0 || begin < code_begin)
                code_begin = begin;
            if (begin + part->p_memsz > code_end)
                code_end = begin + part->p_memsz;
        }
    }
    return 1;
}

static void find_next(void)
{
    next_malloc = (void *(*)(size_t))dlsym(RTLD_NEXT, "malloc");
    next_calloc = (void *(*)(size_t, size_t))dlsym(RTLD_NEXT, "calloc");
    next_realloc = (void *(*)(void *, size_t))dlsym(RTLD_NEXT, "realloc");
}

__attribute__((constructor)) static void begin(void)
{
    const char *which = getenv("KCORE_REFUSE");
    const char *path = getenv("KCORE_REFUSE_REPORT");
    if (!next_malloc)
        find_next();
    dl_iterate_phdr(note_program, NULL);
    if (path) {
        int file = open(path, O_RDWR | O_CLOEXEC);
        if (file >= 0) {
            void *place = mmap(NULL, sizeof *report, PROT_READ | PROT_WRITE, MAP_SHARED, file, 0);
            if (place != MAP_FAILED)
                report = place;
            close(file);
        }
    }
    if (which) {
        char *end;
        first_refused = strtoull(which, &end, 10);
        later_too = *end == '+';
    }
}

/* Whether this request of the program is to be refused. */
static int is_refused(void *caller)
{
    uintptr_t from = (uintptr_t)caller;
    if (from < code_begin || from >= code_end)
        return 0;
    uint64_t number = atomic_fetch_add(&report->requests, 1) + 1;
    if (first_refused == 0 || number < first_refused || (number > first_refused && !later_too))
        return 0;
    atomic_fetch_add(&report->refused, 1);
    errno = ENOMEM;
    return 1;
}

void *malloc(size_t size)
{
    if (is_refused(__builtin_return_address(0)))
        return NULL;
    if (!next_malloc)
        find_next();
    return next_malloc(size);
}

void *calloc(size_t count, size_t size)
{
    if (is_refused(__builtin_return_address(0)))
        return NULL;
    if (!next_calloc)
        find_next();
    return next_calloc(count, size);
}

void *realloc(void *old, size_t size)
{
    if (is_refused(__builtin_return_address(0)))
        return NULL;
    if (!next_realloc)
        find_next();
    return next_realloc(old, size);
}
