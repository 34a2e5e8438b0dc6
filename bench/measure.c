// Runs a command and says what it took.
//   measure OUTPUT COMMAND [WORD..]
// Writes the seconds that went by, those of the processor, and the peak memory in MiB to OUTPUT; ends with the command's status.
#include <stdio.h>
#include <sys/resource.h>
#include <sys/wait.h>
#include <time.h>
#include <unistd.h>

int main(int argc, char **argv) {
  if (argc < 3) return 2;
  struct timespec from, to;
  clock_gettime(CLOCK_MONOTONIC, &from);
  pid_t child = fork();
  if (child < 0) return 2;
  if (child == 0) {
    execvp(argv[2], argv + 2);
    perror(argv[2]);
    _exit(127);
  }
  int status;
  struct rusage used;
  if (wait4(child, &status, 0, &used) < 0) return 2;
  clock_gettime(CLOCK_MONOTONIC, &to);
  FILE *output = fopen(argv[1], "w");
  if (!output) return 2;
  double elapsed = (double)(to.tv_sec - from.tv_sec) + 1e-9 * (double)(to.tv_nsec - from.tv_nsec);
  double cpu = (double)(used.ru_utime.tv_sec + used.ru_stime.tv_sec) + 1e-6 * (double)(used.ru_utime.tv_usec + used.ru_stime.tv_usec);
  fprintf(output, "%.3f %.6f %.1f\n", elapsed, cpu, (double)used.ru_maxrss / 1024);
  fclose(output);
  return WIFEXITED(status) ? WEXITSTATUS(status) : 128;
}
