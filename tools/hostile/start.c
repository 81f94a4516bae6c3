/* Starts a program and tells how it ended, on descriptor 3: its wait status, the greatest memory that it had, in kilobytes, and the
 * processor time that it took, in microseconds. A child of this small process is charged nothing of what the script that measures has. It is a test's, outside the proof. */
#include <fcntl.h>
#include <signal.h>
#include <sys/prctl.h>
#include <sys/resource.h>
#include <sys/wait.h>
#include <unistd.h>

int main(int count, char **words) {
  long told[3] = {0, 0, 0};
  int status = 0;
  struct rusage used;
  (void)count;
  /* where the script is ended, so are this and the program */
  prctl(PR_SET_PDEATHSIG, SIGKILL);
  fcntl(3, F_SETFD, FD_CLOEXEC);
  pid_t child = fork();
  if (child == 0) {
    prctl(PR_SET_PDEATHSIG, SIGKILL);
    execvp(words[1], words + 1);
    _exit(126);
  }
  if (child < 0 || wait4(child, &status, 0, &used) != child) return 1;
  told[0] = status;
  told[1] = used.ru_maxrss;
  told[2] = (used.ru_utime.tv_sec + used.ru_stime.tv_sec) * 1000000L + used.ru_utime.tv_usec + used.ru_stime.tv_usec;
  return write(3, told, sizeof told) != sizeof told;
}
