// Runs a command with the null device as its standard input, output and error, and prints its status, its processor
// seconds and its peak memory in KiB.
#include <fcntl.h>
#include <stdio.h>
#include <sys/resource.h>
#include <sys/wait.h>
#include <unistd.h>
int main(int count, char **words) {
    pid_t child = fork();
    if (child == 0) {
        int nothing = open("/dev/null", O_RDWR);
        dup2(nothing, 0), dup2(nothing, 1), dup2(nothing, 2);
        execvp(words[1], words + 1);
        _exit(99);
    }
    int status;
    struct rusage used;
    wait4(child, &status, 0, &used);
    printf("%d %.3f %ld\n", WIFEXITED(status) ? WEXITSTATUS(status) : 99,
           used.ru_utime.tv_sec + used.ru_stime.tv_sec
               + (used.ru_utime.tv_usec + used.ru_stime.tv_usec) / 1e6,
           used.ru_maxrss);
    return 0;
}
