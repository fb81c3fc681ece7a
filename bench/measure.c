#define _GNU_SOURCE
#include "measure.h"

#include <pthread.h>
#include <signal.h>
#include <stdint.h>
#include <stdio.h>
#include <stdlib.h>
#include <string.h>
#include <sys/mman.h>
#include <sys/resource.h>
#include <time.h>

#define PAGE 4096
#define PAINT 0xA5

double cpu_seconds(void) {
    struct timespec now;
    clock_gettime(CLOCK_PROCESS_CPUTIME_ID, &now);
    return (double)now.tv_sec + (double)now.tv_nsec * 1e-9;
}

static uint8_t *watched;
static volatile double touched;
static struct sigaction before;

static void touch(int number, siginfo_t *info, void *context) {
    (void)number;
    (void)context;
    uint8_t *at = info->si_addr;
    if (watched != NULL && at >= watched && at < watched + PAGE) {
        mprotect(watched, PAGE, PROT_READ | PROT_WRITE);
        touched = cpu_seconds();
    } else {
        sigaction(SIGSEGV, &before, NULL);
    }
}

void watch(void *page) {
    if (watched == NULL) {
        struct sigaction action = {0};
        action.sa_sigaction = touch;
        action.sa_flags = SA_SIGINFO | SA_ONSTACK;
        sigaction(SIGSEGV, &action, &before);
    }
    watched = page;
    touched = 0;
    if (mprotect(page, PAGE, PROT_NONE) != 0) {
        perror("mprotect");
        exit(1);
    }
}

double touched_at(void) { return touched; }

size_t peak_kib(void) {
    struct rusage usage;
    getrusage(RUSAGE_SELF, &usage);
    return (size_t)usage.ru_maxrss;
}

struct task {
    void (*call)(void *);
    void *data;
};

static void *start(void *task) {
    const struct task *t = task;
    t->call(t->data);
    return NULL;
}

size_t stack_reached(void (*call)(void *), void *data, size_t bytes) {
    struct task task = {call, data};
    pthread_attr_t attributes;
    pthread_t thread;
    uint8_t *stack = mmap(NULL, bytes, PROT_READ | PROT_WRITE, MAP_PRIVATE | MAP_ANONYMOUS | MAP_STACK, -1, 0);
    if (stack == MAP_FAILED) {
        perror("mmap");
        exit(1);
    }
    memset(stack, PAINT, bytes);
    pthread_attr_init(&attributes);
    if (pthread_attr_setstack(&attributes, stack, bytes) != 0 ||
        pthread_create(&thread, &attributes, start, &task) != 0 || pthread_join(thread, NULL) != 0) {
        fputs("no thread on the painted stack\n", stderr);
        exit(1);
    }
    size_t untouched = 0;
    while (untouched < bytes && stack[untouched] == PAINT) untouched++;
    pthread_attr_destroy(&attributes);
    munmap(stack, bytes);
    return bytes - untouched;
}
