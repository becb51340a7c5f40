/* Refuses allocations of a program that it is loaded into before all else.
 * It counts those that the program itself asks for, not those of the C library, from 1 on, in the eight bytes of the
 * file REFUSED_COUNT. The one of the number REFUSED_AT is refused, and with REFUSED_ON set each behind it. */
#define _GNU_SOURCE
#include <errno.h>
#include <fcntl.h>
#include <link.h>
#include <stdatomic.h>
#include <stdlib.h>
#include <string.h>
#include <sys/mman.h>
#include <unistd.h>

extern void *__libc_malloc(size_t);
extern void *__libc_calloc(size_t, size_t);
extern void *__libc_realloc(void *, size_t);
extern void *__libc_memalign(size_t, size_t);

static _Atomic(unsigned long) *count;
static unsigned long refused_at;
static int refuses_on;
static unsigned long low, high;

/* Takes where the program lies; it is told first. */
static int place(struct dl_phdr_info *info, size_t size, void *data) {
    (void)size;
    (void)data;
    low = -1UL;
    for (int i = 0; i < info->dlpi_phnum; i++) {
        const ElfW(Phdr) *part = &info->dlpi_phdr[i];
        unsigned long begin = info->dlpi_addr + part->p_vaddr;
        if (part->p_type != PT_LOAD) continue;
        if (begin < low) low = begin;
        if (begin + part->p_memsz > high) high = begin + part->p_memsz;
    }
    return 1;
}

__attribute__((constructor)) static void begin(void) {
    const char *at = getenv("REFUSED_AT"), *name = getenv("REFUSED_COUNT");
    refused_at = at ? strtoul(at, NULL, 10) : 0;
    refuses_on = getenv("REFUSED_ON") != NULL;
    dl_iterate_phdr(place, NULL);
    int file = name ? open(name, O_RDWR | O_CREAT | O_TRUNC, 0666) : -1;
    if (file < 0 || ftruncate(file, sizeof *count)) abort();
    void *there = mmap(NULL, sizeof *count, PROT_READ | PROT_WRITE, MAP_SHARED, file, 0);
    if (there == MAP_FAILED) abort();
    close(file);
    count = there;
}

static int is_refused(void *caller) {
    unsigned long from = (unsigned long)caller;
    if (!count || from < low || from >= high) return 0;
    unsigned long number = atomic_fetch_add(count, 1) + 1;
    return refused_at && (number == refused_at || (refuses_on && number > refused_at));
}

static void *refused(void) {
    errno = ENOMEM;
    return NULL;
}

void *malloc(size_t size) { return is_refused(__builtin_return_address(0)) ? refused() : __libc_malloc(size); }

void *calloc(size_t items, size_t size) {
    return is_refused(__builtin_return_address(0)) ? refused() : __libc_calloc(items, size);
}

void *realloc(void *old, size_t size) {
    return is_refused(__builtin_return_address(0)) ? refused() : __libc_realloc(old, size);
}

void *aligned_alloc(size_t alignment, size_t size) {
    return is_refused(__builtin_return_address(0)) ? refused() : __libc_memalign(alignment, size);
}

int posix_memalign(void **made, size_t alignment, size_t size) {
    if (is_refused(__builtin_return_address(0))) return ENOMEM;
    *made = __libc_memalign(alignment, size);
    return *made ? 0 : ENOMEM;
}
