// Refuses one allocation of a program: the one of number FAIL_ALLOC, counted from 1, and then writes the file FAIL_MARK.
// Loaded before the C library (GNU) by LD_PRELOAD.
#include <errno.h>
#include <fcntl.h>
#include <stdlib.h>
#include <unistd.h>

void *__libc_malloc(size_t size);
void *__libc_calloc(size_t count, size_t size);
void *__libc_realloc(void *old, size_t size);
void *__libc_memalign(size_t alignment, size_t size);

static unsigned long asked;

// Counts an allocation, and says whether it is the one to refuse.
static int is_refused(void) {
    const char *wanted = getenv("FAIL_ALLOC");
    const char *mark = getenv("FAIL_MARK");
    asked += 1;
    if (!wanted || !mark || asked != strtoul(wanted, NULL, 10)) {
        return 0;
    }
    close(open(mark, O_CREAT | O_WRONLY, 0600));
    errno = ENOMEM;
    return 1;
}

void *malloc(size_t size) { return is_refused() ? NULL : __libc_malloc(size); }

void *calloc(size_t count, size_t size) { return is_refused() ? NULL : __libc_calloc(count, size); }

void *realloc(void *old, size_t size) { return is_refused() ? NULL : __libc_realloc(old, size); }

void *memalign(size_t alignment, size_t size) { return is_refused() ? NULL : __libc_memalign(alignment, size); }

void *aligned_alloc(size_t alignment, size_t size) { return memalign(alignment, size); }

int posix_memalign(void **result, size_t alignment, size_t size) {
    *result = memalign(alignment, size);
    return *result ? 0 : ENOMEM;
}
