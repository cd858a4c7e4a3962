/* A library that counts the memory that a program holds, as the allocator gives it, and keeps the most of it, 8 bytes, in the file
   COUNT_MEMORY. Loaded by LD_PRELOAD; checks/save.sh compiles it. */
#include <fcntl.h>
#include <malloc.h>
#include <stdlib.h>
#include <sys/mman.h>
#include <unistd.h>

void *__libc_malloc(size_t size);
void *__libc_calloc(size_t count, size_t size);
void *__libc_realloc(void *old, size_t size);
void __libc_free(void *old);

static _Atomic long held;
static _Atomic long *most;

__attribute__((constructor)) static void begin(void) {
  int file = open(getenv("COUNT_MEMORY"), O_RDWR | O_CREAT, 0600);
  if (file < 0 || ftruncate(file, sizeof *most)) _exit(99);
  void *there = mmap(NULL, sizeof *most, PROT_READ | PROT_WRITE, MAP_SHARED, file, 0);
  if (there == MAP_FAILED) _exit(99);
  close(file);
  most = there;
}

static void *counted(void *given, long before) {
  long now = held += (long)malloc_usable_size(given) - before;
  if (most && now > *most) *most = now;
  return given;
}

void *malloc(size_t size) { return counted(__libc_malloc(size), 0); }

void *calloc(size_t count, size_t size) { return counted(__libc_calloc(count, size), 0); }

void *realloc(void *old, size_t size) {
  long before = (long)malloc_usable_size(old);
  void *given = __libc_realloc(old, size);
  return given ? counted(given, before) : NULL;
}

void free(void *old) {
  held -= (long)malloc_usable_size(old);
  __libc_free(old);
}
