/* A heap that refuses one request of the program that it is loaded into, for tools/fail-each-growth.
 *
 * It is built as a shared object and named in LD_PRELOAD. The program's requests for memory, those to malloc and realloc
 * that come from its own code and not from a library, are counted from 1; the one with the number in REFUSED_GROWTH is
 * answered as where there is no memory, and no other (0: none is). The file named in GROWTH_COUNTS gets two numbers of 64
 * bits: how many requests there were, and how many of them were refused. It is there before the program begins, and has
 * them at each moment, since a program may end without calling exit. It needs glibc. */
#define _GNU_SOURCE

#include <fcntl.h>
#include <link.h>
#include <stdint.h>
#include <stdlib.h>
#include <sys/mman.h>
#include <unistd.h>

void *__libc_malloc(size_t size);
void *__libc_realloc(void *at, size_t size);

struct counts {
    int64_t asked, refused;
};

static struct counts *counts;     /* none until the program begins */
static uintptr_t first, behind;   /* where the program's own code lies */
static int64_t refused_number;

/* The first object that is told is the program. */
static int find_program(struct dl_phdr_info *object, size_t size, void *unused)
{
    (void)size;
    (void)unused;
    for (int part = 0; part < object->dlpi_phnum; part++) {
        if (object->dlpi_phdr[part].p_type != PT_LOAD)
            continue;
        uintptr_t begin = object->dlpi_addr + object->dlpi_phdr[part].p_vaddr;
        uintptr_t end = begin + object->dlpi_phdr[part].p_memsz;
        if (first == 0 || begin < first)
            first = begin;
        if (behind < end)
            behind = end;
    }
    return 1;
}

__attribute__((constructor)) static void begin(void)
{
    const char *number = getenv("REFUSED_GROWTH"), *path = getenv("GROWTH_COUNTS");
    int file = path ? open(path, O_RDWR | O_CLOEXEC) : -1;
    if (number == NULL || file < 0 || ftruncate(file, sizeof *counts) != 0)
        _exit(70);
    void *at = mmap(NULL, sizeof *counts, PROT_READ | PROT_WRITE, MAP_SHARED, file, 0);
    if (at == MAP_FAILED)
        _exit(70);
    close(file);
    dl_iterate_phdr(find_program, NULL);
    refused_number = atol(number);
    counts = at;
}

/* Whether a request that returns to this place is to be refused. */
static int is_refused(void *caller)
{
    uintptr_t place = (uintptr_t)caller;
    if (counts == NULL || place < first || behind <= place)
        return 0;
    if (__atomic_add_fetch(&counts->asked, 1, __ATOMIC_SEQ_CST) != refused_number)
        return 0;
    __atomic_add_fetch(&counts->refused, 1, __ATOMIC_SEQ_CST);
    return 1;
}

void *malloc(size_t size)
{
    return is_refused(__builtin_return_address(0)) ? NULL : __libc_malloc(size);
}

void *realloc(void *at, size_t size)
{
    return is_refused(__builtin_return_address(0)) ? NULL : __libc_realloc(at, size);
}
