/* Runs a command and writes into a file what it took: seconds of user, system and wall time, and
   the greatest resident size in kilobytes. It is small, since a process begins with the size of its
   maker. */
#include <stdio.h>
#include <sys/resource.h>
#include <sys/wait.h>
#include <time.h>
#include <unistd.h>

static double seconds(struct timeval t) { return t.tv_sec + t.tv_usec / 1e6; }

int main(int count, char **words) {
    struct timespec begin, end;
    struct rusage used;
    int status;
    if (count < 3) return 2;
    clock_gettime(CLOCK_MONOTONIC, &begin);
    pid_t child = fork();
    if (child == 0) {
        execvp(words[2], words + 2);
        _exit(127);
    }
    if (child < 0 || wait4(child, &status, 0, &used) < 0) return 126;
    clock_gettime(CLOCK_MONOTONIC, &end);
    FILE *told = fopen(words[1], "w");
    if (!told) return 126;
    fprintf(told, "%f %f %f %ld\n", seconds(used.ru_utime), seconds(used.ru_stime),
            (end.tv_sec - begin.tv_sec) + (end.tv_nsec - begin.tv_nsec) / 1e9, used.ru_maxrss);
    fclose(told);
    return WIFEXITED(status) ? WEXITSTATUS(status) : 125;
}
