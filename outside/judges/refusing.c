/* Loaded before a program: refuses its allocations in turn, or holds its threads at some, so that they meet otherwise.

   The file that ALLOCATIONS names holds three numbers of 64 bits: how many allocations and threads the program asked
   for, and how many of them were refused. REFUSED is the number of the first allocation that is refused, from 1;
   REFUSED_LAST that of the last one, by default the same. THREADS_REFUSED is the number of the thread that is.

   HELD_ONE_IN says how many allocations go by, in the mean, between two at which a thread is held, for less than
   HELD_AT_MOST microseconds. Each thread draws by its own words, from HELD_SEED. */
#define _GNU_SOURCE
#include <dlfcn.h>
#include <errno.h>
#include <fcntl.h>
#include <pthread.h>
#include <stdatomic.h>
#include <stdint.h>
#include <stdlib.h>
#include <sys/mman.h>
#include <unistd.h>

extern void *__libc_malloc(size_t size);
extern void *__libc_calloc(size_t count, size_t size);
extern void *__libc_realloc(void *old, size_t size);
extern void *__libc_memalign(size_t align, size_t size);

struct counts {
  atomic_long allocations;
  atomic_long threads;
  atomic_long refused;
};

static struct counts *counts;
static long first, last, thread_refused;
static uint64_t one_in, at_most, seed;
static atomic_ulong threads_held;

static long number(const char *name, long absent) {
  const char *text = getenv(name);
  return text ? atol(text) : absent;
}

__attribute__((constructor)) static void begin(void) {
  seed = number("HELD_SEED", 0);
  at_most = number("HELD_AT_MOST", 1);
  one_in = number("HELD_ONE_IN", 0);
  const char *path = getenv("ALLOCATIONS");
  int file = path ? open(path, O_RDWR) : -1;
  if (file < 0)
    return;
  first = number("REFUSED", 0);
  last = number("REFUSED_LAST", first);
  thread_refused = number("THREADS_REFUSED", 0);
  void *map = mmap(NULL, sizeof(struct counts), PROT_READ | PROT_WRITE, MAP_SHARED, file, 0);
  close(file);
  counts = map == MAP_FAILED ? NULL : map;
}

/* Draws by xorshift (Marsaglia 2003). */
static void hold(void) {
  static _Thread_local uint64_t word;
  if (!one_in)
    return;
  if (!word)
    word = (seed + 1) * 0x9E3779B97F4A7C15 + atomic_fetch_add(&threads_held, 1);
  word ^= word << 13;
  word ^= word >> 7;
  word ^= word << 17;
  if (word % one_in == 0)
    usleep((word >> 32) % at_most);
}

static int is_refused(void) {
  hold();
  if (!counts)
    return 0;
  long mine = atomic_fetch_add(&counts->allocations, 1) + 1;
  if (mine < first || mine > last)
    return 0;
  atomic_fetch_add(&counts->refused, 1);
  errno = ENOMEM;
  return 1;
}

void *malloc(size_t size) { return is_refused() ? NULL : __libc_malloc(size); }

void *calloc(size_t count, size_t size) { return is_refused() ? NULL : __libc_calloc(count, size); }

void *realloc(void *old, size_t size) { return is_refused() ? NULL : __libc_realloc(old, size); }

void *aligned_alloc(size_t align, size_t size) { return is_refused() ? NULL : __libc_memalign(align, size); }

void *memalign(size_t align, size_t size) { return is_refused() ? NULL : __libc_memalign(align, size); }

int posix_memalign(void **place, size_t align, size_t size) {
  void *found = is_refused() ? NULL : __libc_memalign(align, size);
  if (!found)
    return ENOMEM;
  *place = found;
  return 0;
}

int pthread_create(pthread_t *thread, const pthread_attr_t *how, void *(*body)(void *), void *given) {
  static int (*real)(pthread_t *, const pthread_attr_t *, void *(*)(void *), void *);
  if (!real)
    real = dlsym(RTLD_NEXT, "pthread_create");
  if (counts && atomic_fetch_add(&counts->threads, 1) + 1 == thread_refused) {
    atomic_fetch_add(&counts->refused, 1);
    return EAGAIN;
  }
  return real(thread, how, body, given);
}
