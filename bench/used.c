/* Runs a program and writes what it used.

   used FILE PROGRAM ARGUMENT..

FILE gets a line: the processor time of the program in microseconds (user and system), the peak of its resident memory in
KiB, its exit status, or 128 and the signal that ended it. Linux counts into the peak of a program what the process had
that started it, so the scripts of this folder, which are large, let this one start it. */
#include <stdio.h>
#include <sys/resource.h>
#include <sys/wait.h>
#include <unistd.h>

static long microseconds(struct timeval t) { return t.tv_sec * 1000000L + t.tv_usec; }

int main(int count, char **words) {
    if (count < 3)
        return 125;
    pid_t child = fork();
    if (child == 0) {
        execvp(words[2], words + 2);
        _exit(127);
    }
    int status;
    struct rusage used;
    if (child < 0 || wait4(child, &status, 0, &used) < 0)
        return 125;
    FILE *out = fopen(words[1], "w");
    if (!out)
        return 125;
    int code = WIFEXITED(status) ? WEXITSTATUS(status) : 128 + WTERMSIG(status);
    fprintf(out, "%ld %ld %d\n", microseconds(used.ru_utime) + microseconds(used.ru_stime), used.ru_maxrss, code);
    return fclose(out) ? 125 : 0;
}
