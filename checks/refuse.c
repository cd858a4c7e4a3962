/* A library that refuses the growth of memory whose number is REFUSE_GROWTH, counted from 1 since the program was loaded, and then
   makes the file REFUSE_NOTE, and as many after it as REFUSE_ON says; that refuses each flush, by EIO, of a folder where REFUSE_FLUSH is
   `folder`, of a file where it is `file`; with REFUSE_REMOVE, by EACCES, to remove a file; and each new thread, each new poll or each
   reading of a clock, where REFUSE_SYSTEM is `thread`, `poll` or `clock`; and of which a write that begins with STALL_WRITE makes the file
   STALL_NOTE, and goes on once that is removed. Loaded by LD_PRELOAD; checks/refused-growths.sh, checks/get.sh and checks/save.sh compile
   it. */
#define _GNU_SOURCE
#include <dlfcn.h>
#include <errno.h>
#include <fcntl.h>
#include <malloc.h>
#include <pthread.h>
#include <stdlib.h>
#include <string.h>
#include <sys/stat.h>
#include <sys/syscall.h>
#include <time.h>
#include <unistd.h>

void *__libc_malloc(size_t size);
void *__libc_realloc(void *old, size_t size);

static long left;
static long more;
static const char *flush, *system_call;
static int (*begin_thread)(pthread_t *, const pthread_attr_t *, void *(*)(void *), void *);

/* it starts to count once the program is loaded */
__attribute__((constructor)) static void begin(void) {
  const char *which = getenv("REFUSE_GROWTH");
  const char *on = getenv("REFUSE_ON");
  more = on ? atol(on) : 0;
  flush = getenv("REFUSE_FLUSH");
  system_call = getenv("REFUSE_SYSTEM");
  *(void **)&begin_thread = dlsym(RTLD_NEXT, "pthread_create");
  left = which ? atol(which) : 0;
}

/* whether this growth is one that is refused; the first of them is noted */
static int is_refused(void) {
  if (left < 0) {
    if (more-- <= 0) left = 0;
    if (left < 0) errno = ENOMEM;
    return left < 0;
  }
  if (left == 0 || --left > 0) return 0;
  left = -1;
  int file = open(getenv("REFUSE_NOTE"), O_WRONLY | O_CREAT, 0600);
  if (file >= 0) close(file);
  errno = ENOMEM;
  return 1;
}

void *malloc(size_t size) { return is_refused() ? NULL : __libc_malloc(size); }

void *realloc(void *old, size_t size) {
  if (size > malloc_usable_size(old) && is_refused()) return NULL;
  return __libc_realloc(old, size);
}

int fsync(int file) {
  struct stat found;
  if (flush && fstat(file, &found) == 0 && strcmp(flush, S_ISDIR(found.st_mode) ? "folder" : "file") == 0) {
    errno = EIO;
    return -1;
  }
  return (int)syscall(SYS_fsync, file);
}

static int is_refused_call(const char *name) { return system_call && strcmp(system_call, name) == 0; }

int pthread_create(pthread_t *thread, const pthread_attr_t *attributes, void *(*run)(void *), void *given) {
  return is_refused_call("thread") ? EAGAIN : begin_thread(thread, attributes, run, given);
}

int epoll_create1(int flags) {
  if (is_refused_call("poll")) {
    errno = EMFILE;
    return -1;
  }
  return (int)syscall(SYS_epoll_create1, flags);
}

int clock_gettime(clockid_t clock, struct timespec *now) {
  if (is_refused_call("clock")) {
    errno = EINVAL;
    return -1;
  }
  return (int)syscall(SYS_clock_gettime, clock, now);
}

int unlink(const char *path) {
  if (getenv("REFUSE_REMOVE")) {
    errno = EACCES;
    return -1;
  }
  return (int)syscall(SYS_unlink, path);
}

ssize_t write(int file, const void *bytes, size_t size) {
  const char *stalled = getenv("STALL_WRITE");
  if (stalled && size >= strlen(stalled) && memcmp(bytes, stalled, strlen(stalled)) == 0) {
    const char *note = getenv("STALL_NOTE");
    int made = open(note, O_WRONLY | O_CREAT, 0600);
    if (made >= 0) close(made);
    while (access(note, F_OK) == 0) usleep(1000);
  }
  return syscall(SYS_write, file, bytes, size);
}
