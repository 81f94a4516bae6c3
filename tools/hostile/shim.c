/* Stands between the program and the C library, as LD_PRELOAD: refuses requests for memory and starts of threads, and makes reads
 * and writes fail. It is a test's, outside the proof. The environment says what is to fail; without it everything passes.
 *
 *   HOSTILE_TABLE=FILE    a file of eight longs, mapped, that counts: requests, refused, started threads, joined threads, and how often
 *                         the environment was read
 *   HOSTILE_REFUSE=N      the Nth request is refused, counted from 1; HOSTILE_ALL=1: and all that come later
 *   HOSTILE_START=N       the Nth start of a thread is refused, and all later ones
 *   HOSTILE_READ=K        standard input gives K bytes and then the error EIO
 *   HOSTILE_WRITE=K       standard output takes K bytes and then gives ENOSPC
 *   HOSTILE_COMPLAIN=K    the same of standard error
 *   HOSTILE_PIECE=M       no read or write moves more than M bytes
 *   HOSTILE_AGAIN=1       each second read or write is broken off with EINTR, before it moved anything
 *
 * A start of a thread counts as a request. Requests from before `main` aren't counted.
 */
#define _GNU_SOURCE
#include <dlfcn.h>
#include <errno.h>
#include <fcntl.h>
#include <pthread.h>
#include <stdatomic.h>
#include <stddef.h>
#include <stdlib.h>
#include <sys/mman.h>
#include <sys/syscall.h>
#include <sys/uio.h>
#include <unistd.h>

extern void *__libc_malloc(size_t);
extern void *__libc_calloc(size_t, size_t);
extern void *__libc_realloc(void *, size_t);
extern void *__libc_memalign(size_t, size_t);

enum { REQUESTS, REFUSED, STARTED, JOINED, ASKED, COUNTERS = 8 };
static atomic_long none[COUNTERS];
static atomic_long *counters = none;
static long refuse = -1, all, start = -1, piece, again, limits[3] = {-1, -1, -1};
static atomic_long moved[3], calls[3], starts;
static int is_on;

extern char **environ;

static const char *found(const char *name) {
  for (char **at = environ; at && *at; at++) {
    size_t k = 0;
    while (name[k] && (*at)[k] == name[k]) k++;
    if (!name[k] && (*at)[k] == '=') return *at + k + 1;
  }
  return NULL;
}

char *getenv(const char *name) {
  if (is_on) atomic_fetch_add(&counters[ASKED], 1);
  return (char *)found(name);
}

static long number(const char *name, long missing) {
  const char *text = found(name);
  return text ? atol(text) : missing;
}

__attribute__((constructor)) static void begin(void) {
  const char *table = found("HOSTILE_TABLE");
  int fd = table ? open(table, O_RDWR) : -1;
  if (fd >= 0) {
    void *at = mmap(NULL, sizeof none, PROT_READ | PROT_WRITE, MAP_SHARED, fd, 0);
    if (at != MAP_FAILED) counters = at;
    close(fd);
  }
  refuse = number("HOSTILE_REFUSE", -1);
  all = number("HOSTILE_ALL", 0);
  start = number("HOSTILE_START", -1);
  limits[0] = number("HOSTILE_READ", -1);
  limits[1] = number("HOSTILE_WRITE", -1);
  limits[2] = number("HOSTILE_COMPLAIN", -1);
  piece = number("HOSTILE_PIECE", 0);
  again = number("HOSTILE_AGAIN", 0);
  is_on = 1;
}

static int is_refused(void) {
  if (!is_on) return 0;
  long at = atomic_fetch_add(&counters[REQUESTS], 1) + 1;
  if (refuse < 0 || at < refuse || (at > refuse && !all)) return 0;
  atomic_fetch_add(&counters[REFUSED], 1);
  errno = ENOMEM;
  return 1;
}

void *malloc(size_t size) { return is_refused() ? NULL : __libc_malloc(size); }
void *calloc(size_t count, size_t size) { return is_refused() ? NULL : __libc_calloc(count, size); }
void *realloc(void *old, size_t size) { return is_refused() ? NULL : __libc_realloc(old, size); }
void *memalign(size_t to, size_t size) { return is_refused() ? NULL : __libc_memalign(to, size); }
void *aligned_alloc(size_t to, size_t size) { return is_refused() ? NULL : __libc_memalign(to, size); }
int posix_memalign(void **at, size_t to, size_t size) {
  void *found = is_refused() ? NULL : __libc_memalign(to, size);
  if (found) *at = found;
  return found ? 0 : ENOMEM;
}

void *mmap(void *at, size_t size, int protection, int flags, int fd, off_t offset) {
  if (flags & MAP_ANONYMOUS && !(flags & MAP_FIXED) && is_refused()) return MAP_FAILED;
  return (void *)syscall(SYS_mmap, at, size, protection, flags, fd, offset);
}

int pthread_create(pthread_t *made, const pthread_attr_t *how, void *(*work)(void *), void *with) {
  static int (*real)(pthread_t *, const pthread_attr_t *, void *(*)(void *), void *);
  if (is_refused()) return EAGAIN;
  if (start > 0 && atomic_fetch_add(&starts, 1) + 1 >= start) return EAGAIN;
  if (!real) real = dlsym(RTLD_NEXT, "pthread_create");
  int error = real(made, how, work, with);
  if (!error) atomic_fetch_add(&counters[STARTED], 1);
  return error;
}

int pthread_join(pthread_t thread, void **result) {
  static int (*real)(pthread_t, void **);
  if (!real) real = dlsym(RTLD_NEXT, "pthread_join");
  int error = real(thread, result);
  if (!error) atomic_fetch_add(&counters[JOINED], 1);
  return error;
}

/* How many bytes of so many a stream may move, or -1 with an error. */
static ssize_t allowed(int fd, size_t size, int error) {
  if (!is_on || fd < 0 || fd > 2) return (ssize_t)size;
  if (again && atomic_fetch_add(&calls[fd], 1) % 2 == 0) return errno = EINTR, -1;
  if (piece > 0 && size > (size_t)piece) size = (size_t)piece;
  if (limits[fd] < 0) return (ssize_t)size;
  long left = limits[fd] - atomic_load(&moved[fd]);
  if (left <= 0 && size) return errno = error, -1;
  return (long)size > left ? left : (ssize_t)size;
}

static ssize_t counted(int fd, ssize_t count) {
  if (count > 0 && fd >= 0 && fd <= 2) atomic_fetch_add(&moved[fd], count);
  return count;
}

ssize_t read(int fd, void *to, size_t size) {
  ssize_t most = allowed(fd, size, EIO);
  return most < 0 ? -1 : counted(fd, syscall(SYS_read, fd, to, (size_t)most));
}

ssize_t write(int fd, const void *from, size_t size) {
  ssize_t most = allowed(fd, size, ENOSPC);
  return most < 0 ? -1 : counted(fd, syscall(SYS_write, fd, from, (size_t)most));
}

ssize_t writev(int fd, const struct iovec *parts, int count) {
  for (int k = 0; k < count; k++)
    if (parts[k].iov_len) return write(fd, parts[k].iov_base, parts[k].iov_len);
  return write(fd, NULL, 0);
}
