/* measure OUTPUT PROGRAM WORD..: runs the program with its standard output in the file OUTPUT, and prints its processor
   time (user and system together, in microseconds) and its peak of memory (in KiB). It fails where the program does not end
   with status 0, or with any status where ANY_STATUS is set. */
#define _GNU_SOURCE
#include <fcntl.h>
#include <stdio.h>
#include <stdlib.h>
#include <sys/resource.h>
#include <sys/wait.h>
#include <unistd.h>

static long long micros(struct timeval t)
{
    return (long long)t.tv_sec * 1000000 + t.tv_usec;
}

int main(int argc, char **argv)
{
    if (argc < 3)
        return 2;
    pid_t child = fork();
    if (child < 0)
        return 1;
    if (child == 0) {
        int out = open(argv[1], O_WRONLY | O_CREAT | O_TRUNC, 0666);
        if (out < 0 || dup2(out, 1) < 0)
            _exit(127);
        execv(argv[2], argv + 2);
        _exit(127);
    }
    int status;
    struct rusage used;
    if (wait4(child, &status, 0, &used) != child)
        return 1;
    if (!WIFEXITED(status) || (WEXITSTATUS(status) != 0 && getenv("ANY_STATUS") == NULL))
        return 1;
    printf("%lld %ld\n", micros(used.ru_utime) + micros(used.ru_stime), used.ru_maxrss);
    return 0;
}
