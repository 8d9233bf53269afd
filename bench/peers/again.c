/*
 * Runs the program `stand` over and over in one process, loaded before it: main is called AGAIN times on the same
 * input, which read hands out from memory. What is written is thrown away, but for the last time. The best time of
 * one call, in nanoseconds, goes to standard error.
 */
#define _GNU_SOURCE
#include <dlfcn.h>
#include <stdint.h>
#include <stdio.h>
#include <stdlib.h>
#include <string.h>
#include <sys/syscall.h>
#include <time.h>
#include <unistd.h>

static char input[1 << 17];
static size_t length, taken;
static int last;
static int (*program)(int, char **, char **);

ssize_t read(int fd, void *to, size_t most) {
    if (fd != 0)
        return syscall(SYS_read, fd, to, most);
    size_t n = length - taken < most ? length - taken : most;
    memcpy(to, input + taken, n);
    taken += n;
    return (ssize_t)n;
}

ssize_t write(int fd, const void *from, size_t n) {
    return fd != 1 || last ? syscall(SYS_write, fd, from, n) : (ssize_t)n;
}

static uint64_t now(void) {
    struct timespec t;
    clock_gettime(CLOCK_MONOTONIC, &t);
    return (uint64_t)t.tv_sec * 1000000000u + (uint64_t)t.tv_nsec;
}

static int run(int argc, char **argv, char **env) {
    const char *times = getenv("AGAIN");
    long rounds = times ? atol(times) : 1;
    uint64_t best = UINT64_MAX;
    long n;
    while ((n = syscall(SYS_read, 0, input + length, sizeof input - length)) > 0)
        length += (size_t)n;
    for (long round = 0; round < rounds; round++) {
        taken = 0;
        last = round == rounds - 1;
        uint64_t start = now();
        program(argc, argv, env);
        uint64_t time = now() - start;
        if (time < best && !last)
            best = time;
    }
    fprintf(stderr, "%llu\n", (unsigned long long)best);
    return 0;
}

int __libc_start_main(int (*main)(int, char **, char **), int argc, char **argv, void (*init)(void),
                      void (*fini)(void), void (*rtld_fini)(void), void *stack_end) {
    int (*real)(int (*)(int, char **, char **), int, char **, void (*)(void), void (*)(void), void (*)(void), void *);
    *(void **)&real = dlsym(RTLD_NEXT, "__libc_start_main");
    program = main;
    return real(run, argc, argv, init, fini, rtld_fini, stack_end);
}
