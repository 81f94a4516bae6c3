/* Starts programs one after the other, as it is told on descriptor 3: a head of three numbers of 64 bits, which are the length of the
 * words, how many they are, and the microseconds after which the program's group is killed; then the words, each with a zero byte. A
 * program reads the file 4 from its start, and writes the emptied files 5 and 6. Of its end these are told on descriptor 3: its wait
 * status, the greatest memory that it had, in kilobytes, the time that passed and that of processors, in microseconds, whether its time
 * was up, and how much it wrote into each file, behind which that stands. What is told may wait there while more programs are asked for.
 * A child of this small process is charged nothing of what the script that measures has. It is a test's, outside the proof. */
#define _GNU_SOURCE
#include <fcntl.h>
#include <signal.h>
#include <stdlib.h>
#include <string.h>
#include <sys/prctl.h>
#include <sys/resource.h>
#include <sys/stat.h>
#include <sys/time.h>
#include <sys/wait.h>
#include <unistd.h>

static volatile pid_t child;
static volatile long late;

static void end(int number) {
  (void)number;
  late = 1;
  if (child > 0) kill(-child, SIGKILL);
}

/* Whether all these bytes came. */
static int take(void *to, size_t length) {
  for (char *at = to; length > 0;) {
    ssize_t got = read(3, at, length);
    if (got <= 0) return 0;
    at += got;
    length -= got;
  }
  return 1;
}

/* Whether all these bytes went. */
static int give(const void *from, size_t length) {
  for (const char *at = from; length > 0;) {
    ssize_t gone = write(3, at, length);
    if (gone <= 0) return 0;
    at += gone;
    length -= gone;
  }
  return 1;
}

/* Whether so many bytes of a file went. */
static int give_file(int file, long length) {
  static char piece[1 << 16];
  for (long at = 0; at < length;) {
    ssize_t got = pread(file, piece, sizeof piece, at);
    if (got <= 0 || !give(piece, got)) return 0;
    at += got;
  }
  return 1;
}

static long size_of(int file) {
  struct stat told;
  return fstat(file, &told) ? -1 : told.st_size;
}

static long now(void) {
  struct timeval time;
  gettimeofday(&time, NULL);
  return time.tv_sec * 1000000L + time.tv_usec;
}

static void limit(long microseconds) {
  struct itimerval timer = {{0, 0}, {microseconds / 1000000, microseconds % 1000000}};
  setitimer(ITIMER_REAL, &timer, NULL);
}

int main(void) {
  long head[3], told[7];
  struct sigaction action = {0};
  /* where the script is ended, so are this and the program */
  prctl(PR_SET_PDEATHSIG, SIGKILL);
  for (int number = 3; number <= 6; number++) fcntl(number, F_SETFD, FD_CLOEXEC);
  signal(SIGPIPE, SIG_DFL);
  signal(SIGXFSZ, SIG_DFL);
  action.sa_handler = end;
  action.sa_flags = SA_RESTART;
  sigaction(SIGALRM, &action, NULL);
  while (take(head, sizeof head)) {
    int status = 0;
    struct rusage used;
    char *words = malloc(head[0] + 1), **word = malloc((head[1] + 1) * sizeof *word), *at = words;
    if (words == NULL || word == NULL || !take(words, head[0])) return 1;
    for (long k = 0; k < head[1]; k++, at += strlen(at) + 1) word[k] = at;
    word[head[1]] = NULL;
    if (lseek(4, 0, SEEK_SET) || ftruncate(5, 0) || lseek(5, 0, SEEK_SET) || ftruncate(6, 0) || lseek(6, 0, SEEK_SET)) return 1;
    late = 0;
    told[2] = now();
    child = vfork();
    if (child == 0) {
      prctl(PR_SET_PDEATHSIG, SIGKILL);
      setpgid(0, 0);
      dup2(4, 0);
      dup2(5, 1);
      dup2(6, 2);
      execv(word[0], word);
      _exit(126);
    }
    if (child < 0) return 1;
    limit(head[2]);
    if (wait4(child, &status, 0, &used) != child) return 1;
    limit(0);
    child = 0;
    told[0] = status;
    told[1] = used.ru_maxrss;
    told[2] = now() - told[2];
    told[3] = (used.ru_utime.tv_sec + used.ru_stime.tv_sec) * 1000000L + used.ru_utime.tv_usec + used.ru_stime.tv_usec;
    told[4] = late;
    told[5] = size_of(5);
    told[6] = size_of(6);
    free(words);
    free(word);
    if (!give(told, sizeof told) || !give_file(5, told[5]) || !give_file(6, told[6])) return 1;
  }
  return 0;
}
