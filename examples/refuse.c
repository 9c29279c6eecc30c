/* Refuses a program one growth of its memory, for examples/refuse.sh, as a library that is loaded before it.
   REFUSE is the number, from 1, of the call of malloc or realloc that fails. Calls are counted that the program itself
   makes, and not those of libraries. Where one failed, the file REFUSED is made. */
#define _GNU_SOURCE
#include <errno.h>
#include <fcntl.h>
#include <link.h>
#include <stdatomic.h>
#include <stdint.h>
#include <stdlib.h>
#include <unistd.h>

extern void *__libc_malloc(size_t size);
extern void *__libc_realloc(void *kept, size_t size);

static uintptr_t first, end; /* where the program lies */
static unsigned long number;
static const char *mark;
static atomic_ulong calls;

/* The program itself is told first. */
static int found(struct dl_phdr_info *program, size_t size, void *none)
{
    (void)size, (void)none;
    for (int i = 0; i < program->dlpi_phnum; i++) {
        const ElfW(Phdr) *part = &program->dlpi_phdr[i];
        uintptr_t place = program->dlpi_addr + part->p_vaddr;
        if (part->p_type == PT_LOAD && (part->p_flags & PF_X)) {
            first = place;
            end = place + part->p_memsz;
        }
    }
    return 1;
}

__attribute__((constructor)) static void begin(void)
{
    const char *word = getenv("REFUSE");
    mark = getenv("REFUSED");
    if (word && mark)
        number = strtoul(word, NULL, 10);
    dl_iterate_phdr(found, NULL);
}

static int is_refused(void *from)
{
    uintptr_t place = (uintptr_t)from;
    if (place < first || place >= end || atomic_fetch_add(&calls, 1) + 1 != number)
        return 0;
    close(open(mark, O_CREAT | O_WRONLY, 0600));
    errno = ENOMEM;
    return 1;
}

void *malloc(size_t size)
{
    return is_refused(__builtin_return_address(0)) ? NULL : __libc_malloc(size);
}

void *realloc(void *kept, size_t size)
{
    return is_refused(__builtin_return_address(0)) ? NULL : __libc_realloc(kept, size);
}
