// Refuses one allocation of a program: loaded before it (LD_PRELOAD), it counts the program's own calls of malloc and
// realloc, and answers the one of the number REFUSE_ALLOC as where no memory is left. Calls that the C library makes for
// itself are neither counted nor refused. The file ALLOC_COUNT has two numbers of 64 bits, also while the program runs: how
// many there were, and from which place of the program the refused one came, where it was one of malloc, and otherwise 0.
#define _GNU_SOURCE
#include <errno.h>
#include <fcntl.h>
#include <link.h>
#include <stdatomic.h>
#include <stdint.h>
#include <stdlib.h>
#include <sys/mman.h>
#include <unistd.h>

extern void *__libc_malloc(size_t size);
extern void *__libc_realloc(void *old, size_t size);

static uintptr_t first, last, base;
static uint64_t refused;
static _Atomic uint64_t *count;

// The program itself is the first object that is told.
static int find_program(struct dl_phdr_info *object, size_t size, void *unused) {
    (void)size, (void)unused;
    for (int n = 0; n < object->dlpi_phnum; n++) {
        const ElfW(Phdr) *part = &object->dlpi_phdr[n];
        if (part->p_type == PT_LOAD && part->p_flags & PF_X) {
            base = object->dlpi_addr;
            first = base + part->p_vaddr;
            last = first + part->p_memsz;
        }
    }
    return 1;
}

__attribute__((constructor)) static void begin(void) {
    const char *number = getenv("REFUSE_ALLOC"), *name = getenv("ALLOC_COUNT");
    int file = name ? open(name, O_RDWR) : -1;
    void *room = file < 0 ? MAP_FAILED : mmap(NULL, 16, PROT_READ | PROT_WRITE, MAP_SHARED, file, 0);
    if (room == MAP_FAILED) {
        static const char said[] = "refuse_alloc: ALLOC_COUNT is no file of 16 bytes\n";
        if (write(2, said, sizeof said - 1) < 0) _exit(126);
        _exit(125);
    }
    refused = number ? strtoull(number, NULL, 10) : 0;
    dl_iterate_phdr(find_program, NULL);
    count = room;
}

static int is_refused(void *caller) {
    uintptr_t at = (uintptr_t)caller;
    if (count == NULL || at < first || at >= last) return 0;
    return atomic_fetch_add(count, 1) + 1 == refused;
}

void *malloc(size_t size) {
    void *caller = __builtin_return_address(0);
    if (is_refused(caller)) {
        atomic_store(count + 1, (uintptr_t)caller - base);
        errno = ENOMEM;
        return NULL;
    }
    return __libc_malloc(size);
}

void *realloc(void *old, size_t size) {
    if (is_refused(__builtin_return_address(0))) {
        errno = ENOMEM;
        return NULL;
    }
    return __libc_realloc(old, size);
}
