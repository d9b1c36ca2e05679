/* Waits by the system call that its word names, and tells how many cycles of the model went by. */
#define _GNU_SOURCE
#include "live_requests.h"
#include <errno.h>
#include <poll.h>
#include <signal.h>
#include <stdio.h>
#include <string.h>
#include <sys/epoll.h>
#include <sys/select.h>
#include <sys/syscall.h>
#include <sys/time.h>
#include <time.h>
#include <unistd.h>
static uint64_t now(void) {
    uint64_t times[2];
    kl_ask(KL_TIME, (uintptr_t)times, 0, 0);
    return times[0];
}
static void on(int n) { (void)n; }
static void interrupt(void) {
    const struct itimerval soon = {{0, 200000}, {0, 200000}};
    setitimer(ITIMER_REAL, &soon, NULL);
}
int main(int count, char **words) {
    const struct timespec little = {0, 30000000}, long_time = {20, 0};
    struct timespec rest;
    struct timeval short_time = {0, 30000};
    struct epoll_event event;
    int queue = epoll_create1(0);
    const char *name = words[count - 1];
    signal(SIGALRM, on);
    uint64_t before = now();
    long answer = 0;
    if (!strcmp(name, "nanosleep")) answer = syscall(SYS_nanosleep, &little, NULL);
    if (!strcmp(name, "clock_nanosleep"))
        answer = syscall(SYS_clock_nanosleep, CLOCK_MONOTONIC, 0, &little, NULL);
    if (!strcmp(name, "select")) answer = syscall(SYS_select, 0, NULL, NULL, NULL, &short_time);
    if (!strcmp(name, "pselect"))
        answer = syscall(SYS_pselect6, 0, NULL, NULL, NULL, &little, NULL);
    if (!strcmp(name, "poll")) answer = syscall(SYS_poll, NULL, 0, 30);
    if (!strcmp(name, "ppoll")) answer = syscall(SYS_ppoll, NULL, 0, &little, NULL, 8);
    if (!strcmp(name, "epoll_wait")) answer = syscall(SYS_epoll_wait, queue, &event, 1, 30);
    if (!strcmp(name, "epoll_pwait"))
        answer = syscall(SYS_epoll_pwait, queue, &event, 1, 30, NULL, 8);
    if (!strcmp(name, "nothing")) answer = syscall(SYS_poll, NULL, 0, 0);
    if (!strcmp(name, "interrupted")) {
        interrupt();
        answer = syscall(SYS_nanosleep, &long_time, &rest);
    }
    if (!strcmp(name, "interrupted_clock")) {
        interrupt();
        answer = syscall(SYS_clock_nanosleep, CLOCK_MONOTONIC, 0, &long_time, &rest);
    }
    printf("%ld %lu\n", answer, now() - before);
    return 0;
}
