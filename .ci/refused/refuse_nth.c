/* Loaded before the C library, refuses the Nth request for memory of a program, where REFUSE_NTH is N, and then
 * writes a byte to the file REFUSE_TELL. The Rattle runtime asks by malloc and realloc alone. */
#include <stdatomic.h>
#include <stddef.h>
#include <stdlib.h>
#include <unistd.h>

void *__libc_malloc(size_t size);
void *__libc_realloc(void *block, size_t size);

/* Requests made so far, and the one to be refused: none before the program begins. */
static atomic_ulong requests;
static unsigned long refused;
static int tell;

__attribute__((constructor)) static void begin(void) {
    const char *nth = getenv("REFUSE_NTH"), *file = getenv("REFUSE_TELL");
    tell = file ? atoi(file) : -1;
    requests = 0;
    refused = nth ? strtoul(nth, NULL, 10) : 0;
}

static int is_refused(void) {
    return refused && ++requests == refused && write(tell, "!", 1) == 1;
}

void *malloc(size_t size) {
    return is_refused() ? NULL : __libc_malloc(size);
}

void *realloc(void *block, size_t size) {
    return is_refused() ? NULL : __libc_realloc(block, size);
}
