/* Runs a program, and prints on standard error the microseconds of processor time and the KiB of memory that it used.
 * It is small: a process's greatest memory counts from the one that it was forked from. */
#include <stdio.h>
#include <sys/resource.h>
#include <sys/wait.h>
#include <unistd.h>

static long long microseconds(struct timeval t)
{
    return t.tv_sec * 1000000LL + t.tv_usec;
}

int main(int argc, char **argv)
{
    struct rusage used;
    int status;
    pid_t child = argc < 2 ? -1 : fork();

    if (child == 0) {
        execvp(argv[1], argv + 1);
        _exit(127);
    }
    if (child < 0 || wait4(child, &status, 0, &used) != child || status != 0) {
        fprintf(stderr, "used: the program failed\n");
        return 1;
    }
    fprintf(stderr, "%lld %ld\n", microseconds(used.ru_utime) + microseconds(used.ru_stime), used.ru_maxrss);
    return 0;
}
