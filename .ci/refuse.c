/* Refuses one allocation: the one whose number, from 1, stands in GROWTH, where 0 refuses none. So does FAULT for a read, which then
   fails. Where STILL is set, every allocation is refused from the first read of standard input on. At the end of the process it
   writes into the file GROWTHS how many allocations there were, whether one was refused, how many allocations that were made were
   not freed, and how many were asked for from that read on. It is preloaded, and stands before the C library's own calls. */
#include <errno.h>
#include <fcntl.h>
#include <stdio.h>
#include <stdlib.h>
#include <unistd.h>

void *__libc_malloc(size_t);
void *__libc_calloc(size_t, size_t);
void *__libc_realloc(void *, size_t);
void *__libc_memalign(size_t, size_t);
void __libc_free(void *);
ssize_t __read(int, void *, size_t);

static long growths, refused, live, late;
static int still;

static int refuses(void) {
    static long wanted = -1;
    if (wanted < 0) {
        const char *word = getenv("GROWTH");
        wanted = word ? atol(word) : 0;
    }
    growths++;
    late += still;
    if (growths != wanted && !still) return 0;
    refused = 1;
    errno = ENOMEM;
    return 1;
}

static void *made(void *block) {
    live += block != NULL;
    return block;
}

void *malloc(size_t size) { return refuses() ? NULL : made(__libc_malloc(size)); }

void *calloc(size_t count, size_t size) { return refuses() ? NULL : made(__libc_calloc(count, size)); }

void *aligned_alloc(size_t align, size_t size) { return refuses() ? NULL : made(__libc_memalign(align, size)); }

void *memalign(size_t align, size_t size) { return aligned_alloc(align, size); }

int posix_memalign(void **block, size_t align, size_t size) {
    void *it = aligned_alloc(align, size);
    if (!it) return ENOMEM;
    *block = it;
    return 0;
}

void *realloc(void *block, size_t size) {
    if (!block) return malloc(size);
    return refuses() ? NULL : __libc_realloc(block, size);
}

void free(void *block) {
    live -= block != NULL;
    __libc_free(block);
}

ssize_t read(int file, void *block, size_t size) {
    static long reads;
    const char *word = getenv("FAULT");
    if (file == 0 && getenv("STILL")) still = 1;
    if (!word || ++reads != atol(word)) return __read(file, block, size);
    errno = EIO;
    return -1;
}

__attribute__((destructor)) static void tell(void) {
    const char *path = getenv("GROWTHS");
    char line[100];
    int file = path ? open(path, O_WRONLY | O_CREAT | O_TRUNC, 0600) : -1;
    if (file < 0) return;
    int size = snprintf(line, sizeof line, "%ld %ld %ld %ld\n", growths, refused, live, late);
    if (write(file, line, size) != size) _exit(70);
    close(file);
}
