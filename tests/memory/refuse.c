/* Counts the allocations of a program, and refuses one or more: it is loaded before the C library (LD_PRELOAD).
 *   ALLOCATIONS_REFUSED=N    the N-th allocation, counted from 1, is refused (0, or nothing: none is)
 *   ALLOCATIONS_AFTER=1      and so is each one behind it
 *   ALLOCATIONS_FILE=PATH    at the end of the program five numbers are written there: how many allocations were asked
 *                            for; how many of them before the first thread was started; how many were the block that a
 *                            thread is started with; the microseconds of processor time up to the last allocation, and
 *                            up to the end
 * Allocations are those by malloc and realloc, which are all that the program has. What the C library takes by calloc for
 * a thread isn't counted or refused.
 */
#define _GNU_SOURCE
#include <dlfcn.h>
#include <errno.h>
#include <fcntl.h>
#include <pthread.h>
#include <stdatomic.h>
#include <stddef.h>
#include <stdio.h>
#include <stdlib.h>
#include <sys/syscall.h>
#include <time.h>
#include <unistd.h>

extern void *__libc_malloc(size_t);
extern void *__libc_realloc(void *, size_t);

typedef int start_thread(pthread_t *, const pthread_attr_t *, void *(*)(void *), void *);

static atomic_ulong asked, before, started, refused;
static atomic_long last;
static atomic_int is_refused_after, is_threaded;
static _Thread_local void *newest;
static start_thread *next_start;

static long processor_time(void) {
  struct timespec now;
  clock_gettime(CLOCK_PROCESS_CPUTIME_ID, &now);
  return now.tv_sec * 1000000L + now.tv_nsec / 1000;
}

__attribute__((constructor)) static void begin(void) {
  const char *number = getenv("ALLOCATIONS_REFUSED");
  next_start = (start_thread *)dlsym(RTLD_NEXT, "pthread_create");
  atomic_store(&asked, 0);
  atomic_store(&is_refused_after, getenv("ALLOCATIONS_AFTER") != NULL);
  atomic_store(&refused, number == NULL ? 0 : strtoul(number, NULL, 10));
}

static void tell(void) {
  const char *path = getenv("ALLOCATIONS_FILE");
  char text[200];
  int length, file;
  if (path == NULL) return;
  length = snprintf(text, sizeof text, "%lu %lu %lu %ld %ld\n", atomic_load(&asked),
                    atomic_load(&is_threaded) ? atomic_load(&before) : atomic_load(&asked), atomic_load(&started),
                    atomic_load(&last), processor_time());
  file = open(path, O_WRONLY | O_CREAT | O_TRUNC, 0600);
  if (file < 0 || write(file, text, (size_t)length) != length) syscall(SYS_exit_group, 99);
  close(file);
}

/* the program ends by _exit, or by leaving its main function */
void _exit(int status) {
  tell();
  syscall(SYS_exit_group, status);
  __builtin_unreachable();
}

__attribute__((destructor)) static void end(void) { tell(); }

/* counts an allocation, and tells whether it is to be refused */
static int is_refused(void) {
  unsigned long number = atomic_fetch_add(&asked, 1) + 1;
  unsigned long at = atomic_load(&refused);
  atomic_store(&last, processor_time());
  if (at == 0 || (number != at && !(number > at && atomic_load(&is_refused_after)))) return 0;
  errno = ENOMEM;
  return 1;
}

void *malloc(size_t size) { return newest = is_refused() ? NULL : __libc_malloc(size); }

void *realloc(void *block, size_t size) { return newest = is_refused() ? NULL : __libc_realloc(block, size); }

int pthread_create(pthread_t *thread, const pthread_attr_t *how, void *(*runs)(void *), void *with) {
  unsigned long blocks = with != NULL && with == newest;
  if (!atomic_exchange(&is_threaded, 1)) atomic_store(&before, atomic_load(&asked) - blocks);
  atomic_fetch_add(&started, blocks);
  return next_start(thread, how, runs, with);
}
