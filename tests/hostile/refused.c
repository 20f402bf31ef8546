/* Preloaded before a program: counts the allocations that the C library refuses it, in the file that REFUSED names (eight bytes). */
#include <errno.h>
#include <fcntl.h>
#include <stddef.h>
#include <stdlib.h>
#include <sys/mman.h>
#include <unistd.h>

extern void *__libc_malloc(size_t);
extern void *__libc_calloc(size_t, size_t);
extern void *__libc_realloc(void *, size_t);
extern void *__libc_memalign(size_t, size_t);

static long *count;

__attribute__((constructor)) static void begin(void) {
    const char *path = getenv("REFUSED");
    int file = path == NULL ? -1 : open(path, O_RDWR);
    if (file < 0) return;
    void *found = mmap(NULL, sizeof *count, PROT_READ | PROT_WRITE, MAP_SHARED, file, 0);
    if (found != MAP_FAILED) count = found;
    close(file);
}

static void *counted(void *block) {
    if (block == NULL && count != NULL) ++*count;
    return block;
}

void *malloc(size_t size) { return counted(__libc_malloc(size)); }
void *calloc(size_t many, size_t size) { return counted(__libc_calloc(many, size)); }
void *memalign(size_t align, size_t size) { return counted(__libc_memalign(align, size)); }
void *aligned_alloc(size_t align, size_t size) { return memalign(align, size); }

void *realloc(void *block, size_t size) {
    void *found = __libc_realloc(block, size);
    return size == 0 ? found : counted(found);
}

int posix_memalign(void **block, size_t align, size_t size) {
    void *found = memalign(align, size);
    if (found == NULL) return ENOMEM;
    *block = found;
    return 0;
}
