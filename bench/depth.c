#define _DEFAULT_SOURCE
#include "depth.h"

#include <pthread.h>
#include <stdint.h>
#include <stdio.h>
#include <stdlib.h>
#include <sys/mman.h>

/* What lies below the caller's frame is filled with a pattern; the lowest octet that has another content afterwards
 * tells how far down the call wrote. */
enum { STACK = 1 << 18, PATTERN = 0xA5, SPARED = 256 };

struct errand {
    void (*call)(const void *with);
    const void *with;
    uint8_t *stack; /* its lowest octet */
    size_t depth;
};

static void need(int holds, const char *what)
{
    if (!holds) {
        fprintf(stderr, "stack: %s\n", what);
        exit(1);
    }
}

/* Calls nothing, so that only its own few octets stand between the pattern and the caller's frame. */
static __attribute__((noinline)) void paint(uint8_t *stack)
{
    volatile uint8_t *end = (uint8_t *)__builtin_frame_address(0) - SPARED;

    for (volatile uint8_t *at = stack; at < end; at++) {
        *at = PATTERN;
    }
}

static __attribute__((noinline)) size_t depth_in(uint8_t *stack, void (*call)(const void *with), const void *with)
{
    const uint8_t *frame = __builtin_frame_address(0);
    const volatile uint8_t *lowest = stack;

    paint(stack);
    call(with);
    while (*lowest == PATTERN) {
        lowest++;
    }
    need(lowest > stack, "a call needs more than is there");
    return (size_t)(frame - lowest);
}

static void *measure(void *context)
{
    struct errand *errand = context;

    errand->depth = depth_in(errand->stack, errand->call, errand->with);
    return NULL;
}

size_t depth_of(void (*call)(const void *with), const void *with)
{
    struct errand errand = {.call = call, .with = with};
    pthread_attr_t settings;
    pthread_t thread;

    errand.stack = mmap(NULL, STACK, PROT_READ | PROT_WRITE, MAP_PRIVATE | MAP_ANONYMOUS | MAP_STACK, -1, 0);
    need(errand.stack != MAP_FAILED, "no memory");
    need(pthread_attr_init(&settings) == 0 && pthread_attr_setstack(&settings, errand.stack, STACK) == 0, "it is not taken");
    need(pthread_create(&thread, &settings, measure, &errand) == 0, "no thread");
    pthread_join(thread, NULL);
    pthread_attr_destroy(&settings);
    munmap(errand.stack, STACK);
    return errand.depth;
}
