// What the desk tool calls in its tests in place of read, malloc and realloc (compiled with -Dread=tested_read and its like).
//
//   SP3_SHORT=1        every second read is interrupted, the others give seven bytes at most
//   SP3_NO_MEMORY=N    the N-th call for memory fails
#include <errno.h>
#include <stdlib.h>
#include <unistd.h>

ssize_t tested_read(int source, void *to, size_t most);
void *tested_malloc(size_t size);
void *tested_realloc(void *old, size_t size);

ssize_t tested_read(int source, void *to, size_t most) {
    static int calls;
    if (getenv("SP3_SHORT") == NULL) return read(source, to, most);
    if (calls++ % 2 == 0) {
        errno = EINTR;
        return -1;
    }
    return read(source, to, most < 7 ? most : 7);
}

// Whether this call for memory is the one that fails.
static int fails(void) {
    static int calls;
    const char *wanted = getenv("SP3_NO_MEMORY");
    return wanted != NULL && ++calls == atoi(wanted);
}

void *tested_malloc(size_t size) { return fails() ? NULL : malloc(size); }

void *tested_realloc(void *old, size_t size) { return fails() ? NULL : realloc(old, size); }
