/* Refuses one allocation of a program. bench/refused compiles it as a library and has it loaded before the C library (LD_PRELOAD).

   An allocation is a malloc or a realloc for which the program itself asks; what the C library asks for is let through and is not counted.
   What the program takes as random words is 0, so that two runs write the same.

   REFUSED_NUMBER  which allocation is refused, from 1. Without it none is.
   REFUSED_BY_LINE the count begins anew behind each line feed that the program writes as the last byte to standard output. Behind the
                   first such line the first allocation is refused, behind the second one the second, and so on.
   REFUSED_REPORT  a file of 65,536 bytes that is told, as numbers of 64 bits: the allocations that were asked for, in all; those that
                   were refused; and each place where one was refused, as far as there is room: the distance from where the program was
                   loaded to behind the call. The file has it also where the program is killed. */
#define _GNU_SOURCE
#include <errno.h>
#include <fcntl.h>
#include <link.h>
#include <stdatomic.h>
#include <stdint.h>
#include <stdlib.h>
#include <string.h>
#include <sys/mman.h>
#include <sys/syscall.h>
#include <unistd.h>

/* NEAR is how many words the frame above may be away. The kit's own function needs few. */
enum { BYTES = 65536, PLACES = BYTES / 8 - 2, NEAR = 32 };

struct report {
    _Atomic uint64_t asked, refused;
    _Atomic uint64_t places[PLACES];
};

extern void *__libc_malloc(size_t);
extern void *__libc_realloc(void *, size_t);

static struct report none, *report = &none;
static uintptr_t base, code, code_end;
static _Atomic uint64_t since, number;
static int by_line;

/* Takes the place of the program's own code. It is the first object that is listed. */
static int find_program(struct dl_phdr_info *object, size_t size, void *nothing) {
    (void)size, (void)nothing;
    base = object->dlpi_addr;
    for (int i = 0; i < object->dlpi_phnum; i++)
        if (object->dlpi_phdr[i].p_type == PT_LOAD && object->dlpi_phdr[i].p_flags & PF_X) {
            code = base + object->dlpi_phdr[i].p_vaddr;
            code_end = code + object->dlpi_phdr[i].p_memsz;
        }
    return 1;
}

__attribute__((constructor)) static void begin(void) {
    const char *words = getenv("REFUSED_NUMBER"), *path = getenv("REFUSED_REPORT");
    number = words ? strtoull(words, 0, 10) : 0;
    by_line = getenv("REFUSED_BY_LINE") != 0;
    int file = path ? open(path, O_RDWR | O_CLOEXEC) : -1;
    if (file >= 0) {
        void *room = mmap(0, BYTES, PROT_READ | PROT_WRITE, MAP_SHARED, file, 0);
        if (room != MAP_FAILED)
            report = room;
        close(file);
    }
    dl_iterate_phdr(find_program, 0);
}

/* Notes a place, unless it stands there already. */
static void note(uint64_t place) {
    for (int i = 0; i < PLACES; i++) {
        uint64_t free = 0;
        if (atomic_compare_exchange_strong(&report->places[i], &free, place) || free == place)
            return;
    }
}

/* Who asks for memory. The frame is that of malloc or realloc. Mostly the kit's own function calls them; it keeps a frame too, and behind
   that stands who asked it. Where the program's own code calls them, it is that, and what stands in its frame's place is any number. */
static uintptr_t asker(void **frame) {
    void **above = frame[0];
    int is_frame = above > frame && above < frame + NEAR && (uintptr_t)above % sizeof *above == 0;
    uintptr_t behind = is_frame ? (uintptr_t)above[1] : 0;
    return behind >= code && behind < code_end ? behind : (uintptr_t)frame[1];
}

/* Whether an allocation that is asked for here is refused. */
static int is_refused(void **frame) {
    uintptr_t asks = (uintptr_t)frame[1];
    if (asks < code || asks >= code_end)
        return 0;
    atomic_fetch_add(&report->asked, 1);
    uint64_t now = atomic_fetch_add(&since, 1) + 1;
    if (now != number)
        return 0;
    atomic_fetch_add(&report->refused, 1);
    note(asker(frame) - base);
    errno = ENOMEM;
    return 1;
}

void *malloc(size_t size) {
    return is_refused(__builtin_frame_address(0)) ? 0 : __libc_malloc(size);
}

void *realloc(void *block, size_t size) {
    return is_refused(__builtin_frame_address(0)) ? 0 : __libc_realloc(block, size);
}

int getentropy(void *bytes, size_t count) {
    memset(bytes, 0, count);
    return 0;
}

ssize_t write(int file, const void *bytes, size_t count) {
    ssize_t wrote = syscall(SYS_write, file, bytes, count);
    if (by_line && file == 1 && wrote > 0 && ((const char *)bytes)[wrote - 1] == '\n') {
        atomic_store(&since, 0);
        atomic_fetch_add(&number, 1);
    }
    return wrote;
}
