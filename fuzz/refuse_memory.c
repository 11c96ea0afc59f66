/* Preloaded into a program, it refuses requests for memory: with REFUSE=N in the environment the request of that number, and with
 * REFUSE_FROM=N that one and all after it. With COUNT=FILE it writes to FILE how many requests there were. */
#include <errno.h>
#include <stdio.h>
#include <stdlib.h>

void *__libc_malloc(size_t size);
void *__libc_calloc(size_t count, size_t size);
void *__libc_realloc(void *block, size_t size);
void *__libc_memalign(size_t alignment, size_t size);

static unsigned long requests;
static unsigned long refused;
static unsigned long refused_from;

static unsigned long number_in(const char *name) {
  const char *text = getenv(name);
  return text ? strtoul(text, NULL, 10) : 0;
}

__attribute__((constructor)) static void begin(void) {
  refused = number_in("REFUSE");
  refused_from = number_in("REFUSE_FROM");
  requests = 0;
}

__attribute__((destructor)) static void end(void) {
  const char *name = getenv("COUNT");
  unsigned long found = requests;
  refused = refused_from = 0;
  FILE *file = name ? fopen(name, "w") : NULL;
  if (file) {
    fprintf(file, "%lu\n", found);
    fclose(file);
  }
}

static int is_refused(void) {
  requests++;
  if (requests != refused && (refused_from == 0 || requests < refused_from)) return 0;
  errno = ENOMEM;
  return 1;
}

void *malloc(size_t size) { return is_refused() ? NULL : __libc_malloc(size); }

void *calloc(size_t count, size_t size) { return is_refused() ? NULL : __libc_calloc(count, size); }

void *realloc(void *block, size_t size) { return is_refused() ? NULL : __libc_realloc(block, size); }

void *memalign(size_t alignment, size_t size) { return is_refused() ? NULL : __libc_memalign(alignment, size); }

void *aligned_alloc(size_t alignment, size_t size) { return is_refused() ? NULL : __libc_memalign(alignment, size); }

int posix_memalign(void **block, size_t alignment, size_t size) {
  if (is_refused()) return ENOMEM;
  *block = __libc_memalign(alignment, size);
  return *block ? 0 : ENOMEM;
}
