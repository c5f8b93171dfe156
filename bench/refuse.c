// Refuses allocations of a process into which it is loaded (LD_PRELOAD), as bench/refuse asks for it.
//
// REFUSE_AT is the number of the allocation that is refused, counted from 1 over all threads (0: none is),
// and REFUSE_ON, where it is set, has all that follow refused too. REFUSE_COUNTS names a file of two numbers
// of 64 bits, which this keeps up to date: how many allocations were asked for, and how many of them were
// refused. Calls of the C library's allocator, of mmap and of pthread_create are counted; what the library does
// beneath them is not.
#define _GNU_SOURCE
#include <dlfcn.h>
#include <errno.h>
#include <fcntl.h>
#include <pthread.h>
#include <stdatomic.h>
#include <stddef.h>
#include <stdint.h>
#include <stdlib.h>
#include <sys/mman.h>
#include <sys/syscall.h>
#include <unistd.h>

extern void *__libc_malloc(size_t size);
extern void *__libc_calloc(size_t count, size_t size);
extern void *__libc_realloc(void *old, size_t size);
extern void *__libc_memalign(size_t alignment, size_t size);

struct counts {
  _Atomic uint64_t asked;
  _Atomic uint64_t refused;
};

typedef void *work(void *);
typedef int maker(pthread_t *, const pthread_attr_t *, work *, void *);

static maker *make_thread;
static struct counts before_the_file;
static struct counts *_Atomic counts = &before_the_file;
static uint64_t refuse_at;
static int refuse_on;
static _Atomic int is_ready;

// Runs before the program's own code: what the loader asked for earlier is neither counted nor refused.
__attribute__((constructor)) static void begin(void) {
  const char *at = getenv("REFUSE_AT");
  const char *name = getenv("REFUSE_COUNTS");
  int file = name ? open(name, O_RDWR | O_CLOEXEC) : -1;
  if (file >= 0) {
    long place = syscall(SYS_mmap, NULL, sizeof(struct counts), PROT_READ | PROT_WRITE, MAP_SHARED, file, 0);
    if (place > 0 || place < -4095) counts = (struct counts *)place;
    close(file);
  }
  make_thread = (maker *)dlsym(RTLD_NEXT, "pthread_create");
  refuse_at = at ? strtoull(at, NULL, 10) : 0;
  refuse_on = getenv("REFUSE_ON") != NULL;
  is_ready = 1;
}

// Whether the allocation that is asked for now is refused.
static int is_refused(void) {
  if (!is_ready) return 0;
  uint64_t number = atomic_fetch_add(&counts->asked, 1) + 1;
  if (refuse_at == 0 || number < refuse_at || (number > refuse_at && !refuse_on)) return 0;
  atomic_fetch_add(&counts->refused, 1);
  errno = ENOMEM;
  return 1;
}

void *malloc(size_t size) { return is_refused() ? NULL : __libc_malloc(size); }

void *calloc(size_t count, size_t size) { return is_refused() ? NULL : __libc_calloc(count, size); }

void *realloc(void *old, size_t size) { return is_refused() ? NULL : __libc_realloc(old, size); }

void *aligned_alloc(size_t alignment, size_t size) {
  return is_refused() ? NULL : __libc_memalign(alignment, size);
}

void *memalign(size_t alignment, size_t size) {
  return is_refused() ? NULL : __libc_memalign(alignment, size);
}

int posix_memalign(void **place, size_t alignment, size_t size) {
  if (is_refused()) return ENOMEM;
  void *found = __libc_memalign(alignment, size);
  if (found) *place = found;
  return found ? 0 : ENOMEM;
}

void *mmap(void *at, size_t size, int may, int kind, int file, off_t from) {
  return is_refused() ? MAP_FAILED : (void *)syscall(SYS_mmap, at, size, may, kind, file, from);
}

void *mmap64(void *at, size_t size, int may, int kind, int file, off_t from) {
  return mmap(at, size, may, kind, file, from);
}

int pthread_create(pthread_t *thread, const pthread_attr_t *kind, work *run, void *with) {
  return is_refused() ? EAGAIN : make_thread(thread, kind, run, with);
}
