/* A malloc in front of the C library's. It counts what a process asks for, and refuses some of it.
 *
 * REFUSE_AT      the number of the allocation that is refused, from 1; 0 or nothing: none is
 * REFUSE_ONWARD  where it is set, all that come after that one are refused too
 * REFUSE_TELL    a file of eight bytes, in which the number of allocations stands at any time
 *
 * What the C library asks for itself, to make a thread for instance, is counted with the rest. */
#include <errno.h>
#include <fcntl.h>
#include <stdatomic.h>
#include <stddef.h>
#include <stdlib.h>
#include <sys/mman.h>
#include <unistd.h>

void *__libc_malloc(size_t size);
void *__libc_calloc(size_t count, size_t size);
void *__libc_realloc(void *old, size_t size);
void *__libc_memalign(size_t align, size_t size);

static atomic_ulong *asked;
static unsigned long refused_one;
static int goes_on;

/* Counting begins here, with the program's own first steps. */
__attribute__((constructor)) static void begin(void) {
  const char *at = getenv("REFUSE_AT"), *tell = getenv("REFUSE_TELL");
  int file = tell ? open(tell, O_RDWR) : -1;
  void *shared;
  if (file < 0)
    return;
  refused_one = at ? strtoul(at, NULL, 10) : 0;
  goes_on = getenv("REFUSE_ONWARD") != NULL;
  shared = mmap(NULL, sizeof *asked, PROT_READ | PROT_WRITE, MAP_SHARED, file, 0);
  asked = shared == MAP_FAILED ? NULL : shared;
  close(file);
}

/* Counts one more, and says whether it is refused. */
static int is_refused(void) {
  unsigned long number;
  if (!asked)
    return 0;
  number = atomic_fetch_add(asked, 1) + 1;
  if (!refused_one || number < refused_one || (number > refused_one && !goes_on))
    return 0;
  errno = ENOMEM;
  return 1;
}

void *malloc(size_t size) { return is_refused() ? NULL : __libc_malloc(size); }

void *calloc(size_t count, size_t size) {
  return is_refused() ? NULL : __libc_calloc(count, size);
}

void *realloc(void *old, size_t size) {
  return is_refused() ? NULL : __libc_realloc(old, size);
}

void *memalign(size_t align, size_t size) {
  return is_refused() ? NULL : __libc_memalign(align, size);
}

void *aligned_alloc(size_t align, size_t size) { return memalign(align, size); }

int posix_memalign(void **to, size_t align, size_t size) {
  void *got = memalign(align, size);
  if (!got)
    return ENOMEM;
  *to = got;
  return 0;
}
