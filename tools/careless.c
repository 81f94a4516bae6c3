/* The program PROGRAM as a careless one would have it: it starts another program, looks at no error of its streams and ends by 1 where
 * memory is wanting. A check of the program must tell it from PROGRAM. It is a test's, outside the proof. */
#include <stdio.h>
#include <stdlib.h>
#include <sys/wait.h>
#include <unistd.h>

int main(int count, char **words) {
  (void)count;
  int ends[2], status = 0;
  char *piece = malloc(1 << 16);
  if (piece == NULL || pipe(ends) != 0) return 1;
  pid_t child = fork();
  if (child == 0) {
    unsetenv("LD_PRELOAD");
    dup2(ends[1], 1);
    close(ends[0]);
    close(ends[1]);
    execv(PROGRAM, words);
    _exit(127);
  }
  close(ends[1]);
  ssize_t got;
  while ((got = read(ends[0], piece, 1 << 16)) > 0)
    if (write(1, piece, (size_t)got) < 0) continue;
  waitpid(child, &status, 0);
  return WIFEXITED(status) ? WEXITSTATUS(status) : 128;
}
