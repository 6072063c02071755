/* Has the allocation with the number in REFUSE_CALL, from 1, answer that there is no memory, and writes how many were asked for
   to the file REFUSE_COUNT. To be preloaded (tests/allocations). */
#include <errno.h>
#include <stdio.h>
#include <stdlib.h>

extern void *__libc_malloc(size_t size);
extern void *__libc_calloc(size_t count, size_t size);
extern void *__libc_realloc(void *old, size_t size);
extern void *__libc_memalign(size_t alignment, size_t size);

static long calls;
static long refused = -1;

static int is_refused(void) {
  if (refused < 0) {
    const char *text = getenv("REFUSE_CALL");
    refused = text ? atol(text) : 0;
  }
  calls++;
  if (calls == refused) {
    errno = ENOMEM;
    return 1;
  }
  return 0;
}

void *malloc(size_t size) { return is_refused() ? 0 : __libc_malloc(size); }

void *calloc(size_t count, size_t size) { return is_refused() ? 0 : __libc_calloc(count, size); }

void *realloc(void *old, size_t size) { return is_refused() ? 0 : __libc_realloc(old, size); }

void *aligned_alloc(size_t alignment, size_t size) { return is_refused() ? 0 : __libc_memalign(alignment, size); }

int posix_memalign(void **out, size_t alignment, size_t size) {
  if (is_refused())
    return ENOMEM;
  *out = __libc_memalign(alignment, size);
  return *out ? 0 : ENOMEM;
}

__attribute__((destructor)) static void report(void) {
  long asked = calls;
  const char *path = getenv("REFUSE_COUNT");
  FILE *file = path ? fopen(path, "w") : 0;
  if (file) {
    fprintf(file, "%ld\n", asked);
    fclose(file);
  }
}
