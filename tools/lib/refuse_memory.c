// Loaded before a program, it refuses the program memory. What is asked for is counted from where `main` begins: each block, and each
// thread, which has a stack. Before `main` the process makes a copy of itself for each number, from 1 on or from REFUSE_FIRST on. In the
// copy of number N request N is refused, or with REFUSE_MEMORY=rest each from N on, and the program goes on. This ends with the first copy
// that asks less than N times. Of each copy the file REFUSE_REPORT gets a line with N, the number of requests, the wait status and how many
// bytes were written, and then these bytes. For glibc.
#define _GNU_SOURCE
#include <dlfcn.h>
#include <errno.h>
#include <fcntl.h>
#include <pthread.h>
#include <stdatomic.h>
#include <stdio.h>
#include <stdlib.h>
#include <string.h>
#include <sys/mman.h>
#include <sys/wait.h>
#include <unistd.h>

extern void *__libc_malloc(size_t), *__libc_calloc(size_t, size_t), *__libc_realloc(void *, size_t), *__libc_memalign(size_t, size_t);

// No call takes so many seconds.
static const unsigned most_seconds = 10;
static long first_refused; // 0: nothing is counted
static int refuses_rest;
static atomic_long *requests;

static int is_refused(void) {
  if (!first_refused) return 0;
  long number = atomic_fetch_add(requests, 1) + 1;
  return refuses_rest ? number >= first_refused : number == first_refused;
}

static void *no_memory(void) {
  errno = ENOMEM;
  return NULL;
}

void *malloc(size_t size) { return is_refused() ? no_memory() : __libc_malloc(size); }
void *calloc(size_t count, size_t size) { return is_refused() ? no_memory() : __libc_calloc(count, size); }
void *realloc(void *old, size_t size) { return is_refused() ? no_memory() : __libc_realloc(old, size); }
void *aligned_alloc(size_t align, size_t size) { return is_refused() ? no_memory() : __libc_memalign(align, size); }
void *memalign(size_t align, size_t size) { return is_refused() ? no_memory() : __libc_memalign(align, size); }

int posix_memalign(void **block, size_t align, size_t size) {
  if (is_refused()) return ENOMEM;
  *block = __libc_memalign(align, size);
  return *block ? 0 : ENOMEM;
}

int pthread_create(pthread_t *thread, const pthread_attr_t *attributes, void *(*body)(void *), void *argument) {
  static int (*next)(pthread_t *, const pthread_attr_t *, void *(*)(void *), void *);
  if (is_refused()) return EAGAIN;
  *(void **)&next = dlsym(RTLD_NEXT, "pthread_create");
  return next(thread, attributes, body, argument);
}

// What a copy wrote, after the line on it.
static void report(FILE *to, int from, long number, int status) {
  char bytes[65536];
  ssize_t got;
  fprintf(to, "%ld %ld %d %ld\n", number, atomic_load(requests), status, (long)lseek(from, 0, SEEK_END));
  lseek(from, 0, SEEK_SET);
  while ((got = read(from, bytes, sizeof bytes)) > 0) fwrite(bytes, 1, got, to);
}

// Makes the copies. Only a copy returns, into the program.
__attribute__((constructor)) static void copies(void) {
  const char *path = getenv("REFUSE_REPORT"), *which = getenv("REFUSE_MEMORY"), *first = getenv("REFUSE_FIRST");
  FILE *to = path ? fopen(path, "wb") : NULL;
  if (!to) _exit(99);
  refuses_rest = which && !strcmp(which, "rest");
  requests = mmap(NULL, sizeof *requests, PROT_READ | PROT_WRITE, MAP_SHARED | MAP_ANONYMOUS, -1, 0);
  for (long number = first ? atol(first) : 1;; number++) {
    int written = memfd_create("written", 0), status;
    atomic_store(requests, 0);
    fflush(to);
    pid_t copy = fork();
    if (!copy) {
      dup2(written, 1);
      close(written);
      alarm(most_seconds);
      first_refused = number;
      return;
    }
    waitpid(copy, &status, 0);
    report(to, written, number, status);
    close(written);
    if (atomic_load(requests) < number) break;
  }
  fclose(to);
  _exit(0);
}
