/* How much stack a filtering and an amendment take: each is called on a thread whose stack was painted, and the paint that is left is counted. */
#include <pthread.h>
#include <stdio.h>
#include <stdlib.h>
#include <string.h>
#include "wiring.h"

enum { PLACES = WIRING_PLACES_MAX, STACK = 1 << 20, PAINT = 0xA5 };

static uint8_t image[WIRING_FORM_MAX], form[WIRING_FORM_MAX], wiring[WIRING_RUNS_MAX];
static uint16_t segments[WIRING_PLACES_MAX];
static size_t length;

static void put(uint8_t *at, int number) {
    at[0] = number & 255;
    at[1] = number >> 8;
}

/* A form of 256 places: a line of them and, where there are more runs, the next shortest runs. */
static void make(int runs) {
    static const int contents[] = {3, 1, 20, PLACES, 2, 20 + PLACES};
    uint8_t *run = image + 20 + PLACES, *four = run + 5 * runs;
    for (int k = 0; k < 6; k++) put(image + 2 * k, contents[k]);
    put(image + 12, runs);
    put(image + 14, 3);
    put(image + 16, 20 + PLACES + 5 * runs);
    put(image + 18, 1);
    for (int x = 0; x < PLACES; x++) image[20 + x] = x % 3 == 0;
    for (int step = 1; run < four; step++)
        for (int u = 0; u + step < PLACES && run < four; u++, run += 5) {
            put(run, u);
            put(run + 2, u + step);
            run[4] = 1;
        }
    put(four, 1);
    put(four + 2, 200);
    length = four + 4 - image;
}

static void *nothing(void *unused) { return unused; }

static void *filter(void *unused) {
    wiring_filter(image, length, form, sizeof form, wiring, sizeof wiring, segments, PLACES);
    return unused;
}

static void *amend(void *unused) {
    wiring_amend(image, length, 1, 0, 0, form, sizeof form, wiring, sizeof wiring, segments, PLACES);
    return unused;
}

static size_t used(void *(*call)(void *)) {
    pthread_t thread;
    pthread_attr_t attributes;
    uint8_t *stack = aligned_alloc(4096, STACK);
    size_t kept = 0;
    memset(stack, PAINT, STACK);
    pthread_attr_init(&attributes);
    pthread_attr_setstack(&attributes, stack, STACK);
    if (pthread_create(&thread, &attributes, call, NULL)) exit(1);
    pthread_join(thread, NULL);
    while (stack[kept] == PAINT) kept++;
    free(stack);
    return STACK - kept;
}

int main(void) {
    for (int runs = PLACES - 1; runs <= WIRING_RUNS_MAX; runs += WIRING_RUNS_MAX - PLACES + 1) {
        make(runs);
        size_t thread = used(nothing);
        printf("stack, %4d runs: %zu bytes for a filtering, %zu for an amendment\n", runs, used(filter) - thread, used(amend) - thread);
    }
}
