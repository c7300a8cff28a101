/*
 * measure INPUT PROGRAM [WORD...]: runs a program with a file as its input and its output thrown away, and prints its processor time
 * (user and system), the time by the clock, both in microseconds, and the most memory that it had resident, in KiB.
 */
#define _GNU_SOURCE /* wait4 */
#include <fcntl.h>
#include <stdio.h>
#include <stdlib.h>
#include <sys/resource.h>
#include <sys/wait.h>
#include <time.h>
#include <unistd.h>

static void stop(const char *what)
{
    perror(what);
    exit(EXIT_FAILURE);
}

static void start(char **words)
{
    int in = open(words[1], O_RDONLY);
    int out = open("/dev/null", O_WRONLY);
    if (in < 0 || dup2(in, STDIN_FILENO) < 0)
        stop(words[1]);
    if (out < 0 || dup2(out, STDOUT_FILENO) < 0)
        stop("/dev/null");
    execv(words[2], words + 2);
    stop(words[2]);
}

static long long microseconds(struct timeval t)
{
    return t.tv_sec * 1000000LL + t.tv_usec;
}

static long long now(void)
{
    struct timespec t;
    clock_gettime(CLOCK_MONOTONIC, &t);
    return t.tv_sec * 1000000LL + t.tv_nsec / 1000;
}

int main(int count, char **words)
{
    if (count < 3) {
        fprintf(stderr, "usage: measure INPUT PROGRAM [WORD...]\n");
        return EXIT_FAILURE;
    }
    long long began = now();
    pid_t child = fork();
    if (child < 0)
        stop("fork");
    if (child == 0)
        start(words);
    int status;
    struct rusage use;
    if (wait4(child, &status, 0, &use) < 0)
        stop("wait4");
    long long took = now() - began;
    if (!WIFEXITED(status) || WEXITSTATUS(status) != 0) {
        fprintf(stderr, "measure: %s failed\n", words[2]);
        return EXIT_FAILURE;
    }
    printf("%lld %lld %ld\n", microseconds(use.ru_utime) + microseconds(use.ru_stime), took, use.ru_maxrss);
    return EXIT_SUCCESS;
}
