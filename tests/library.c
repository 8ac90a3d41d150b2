/* Calls the library as a program of its user does, with only the header in hand. The last line is 'N passed, M failed'. */
#define _DEFAULT_SOURCE /* mmap, for memory that ends where a slice ends */
#include "../include/wiring.h"

#include <stdio.h>
#include <stdlib.h>
#include <string.h>
#include <sys/mman.h>
#include <unistd.h>

enum { SPARE = 32, PIN = 1, STRIKE = 2, NARROW = 3 };

static int passed, failed;

static void check(int good, const char *name, const char *what) {
    if (good) {
        passed++;
    } else {
        failed++;
        printf("FAILED %s: %s\n", name, what);
    }
}

/* Form E, as the paper prints it, and its parts. */
static const uint8_t E[54] = {3, 0, 1, 0, 20, 0, 5, 0, 2, 0, 25, 0, 5, 0, 3, 0, 50, 0, 1, 0, 1, 0, 0, 0, 1, 0, 0,
                              1, 0, 2, 1, 0, 2, 0, 1, 0, 0, 2, 0, 1, 2, 0, 3, 0, 1, 3, 0, 4, 0, 1, 1, 0, 9, 0};
enum { PLACES = 5, RUNS = 5, PLACE_0 = 20, RUN_0 = 25, STATE_0 = 29, LOW = 50, HIGH = 52 };
#define STATE(r) (STATE_0 + 5 * (r))

/* The three buffers, each with spare room on both sides that no call may touch. */
typedef struct {
    uint8_t form[SPARE + WIRING_FORM_MAX + SPARE];
    uint8_t wiring[SPARE + WIRING_RUNS_MAX + SPARE];
    uint16_t segments[SPARE + WIRING_PLACES_MAX + SPARE];
} lent;

static void fresh(lent *b) { memset(b, 0xa5, sizeof *b); }

static int untouched(const lent *b) {
    lent other;
    fresh(&other);
    return memcmp(b, &other, sizeof other) == 0;
}

/* What stands in the buffers is what stood there, but for what is written at their starts. */
static int written(const lent *b, const uint8_t *form, size_t form_len, const uint8_t *wiring, size_t runs, const uint16_t *segments,
                   size_t places) {
    lent other;
    fresh(&other);
    memcpy(other.form + SPARE, form, form_len);
    memcpy(other.wiring + SPARE, wiring, runs);
    memcpy(other.segments + SPARE, segments, 2 * places);
    return memcmp(b, &other, sizeof other) == 0;
}

static wiring_reply filter(const uint8_t *image, size_t len, lent *b, size_t form, size_t wiring, size_t segments) {
    return wiring_filter(image, len, b->form + SPARE, form, b->wiring + SPARE, wiring, b->segments + SPARE, segments);
}

static wiring_reply amend(const uint8_t *image, size_t len, uint16_t kind, uint16_t x, uint16_t y, lent *b) {
    return wiring_amend(image, len, kind, x, y, b->form + SPARE, WIRING_FORM_MAX, b->wiring + SPARE, WIRING_RUNS_MAX,
                        b->segments + SPARE, WIRING_PLACES_MAX);
}

static int is(wiring_reply r, int number, int place, int struck, int pinned) {
    return r.number == number && r.place == place && r.struck == struck && r.pinned == pinned;
}

/* Memory of this size with nothing behind it: a byte further ends the program. */
static void *ending(size_t size) {
    size_t page = (size_t)sysconf(_SC_PAGESIZE), room = (size + page - 1) / page * page;
    uint8_t *at = (uint8_t *)mmap(NULL, room + page, PROT_READ | PROT_WRITE, MAP_PRIVATE | MAP_ANONYMOUS, -1, 0);
    if (at == MAP_FAILED || mprotect(at + room, page, PROT_NONE) != 0) {
        perror("mmap");
        exit(2);
    }
    return at + room - size;
}

/* Form E is confirmed with the paper's values, whatever room there is, and nothing else is written. */
static void form_e(void) {
    static const size_t more[] = {0, 1, SPARE};
    static const uint8_t used[RUNS] = {1, 1, 0, 1, 0};
    static const uint16_t segment[PLACES] = {0, 0, 0, 0, 4};
    uint8_t confirmed[sizeof E];
    lent b;
    size_t k;
    memcpy(confirmed, E, sizeof E);
    confirmed[HIGH] = 2;
    for (k = 0; k < sizeof more / sizeof *more; k++) {
        fresh(&b);
        check(is(filter(E, sizeof E, &b, sizeof E + more[k], RUNS + more[k], PLACES + more[k]), 0, 0, 0, 0), "form E", "reply");
        check(written(&b, confirmed, sizeof E, used, RUNS, segment, PLACES), "form E", "buffers");
    }
    {
        uint8_t *image = (uint8_t *)ending(sizeof E), *form = (uint8_t *)ending(sizeof E), *wiring = (uint8_t *)ending(RUNS);
        uint16_t *segments = (uint16_t *)ending(2 * PLACES);
        memcpy(image, E, sizeof E);
        check(is(wiring_filter(image, sizeof E, form, sizeof E, wiring, RUNS, segments, PLACES), 0, 0, 0, 0), "exact room", "reply");
        check(!memcmp(form, confirmed, sizeof E) && !memcmp(wiring, used, RUNS) && !memcmp(segments, segment, 2 * PLACES), "exact room",
              "buffers");
    }
}

static void short_buffers(void) {
    static const size_t lengths[][3] = {{sizeof E - 1, RUNS, PLACES}, {sizeof E, RUNS - 1, PLACES}, {sizeof E, RUNS, PLACES - 1},
                                        {0, RUNS, PLACES},            {sizeof E, 0, PLACES},        {sizeof E, RUNS, 0},
                                        {0, 0, 0}};
    lent b;
    size_t k;
    for (k = 0; k < sizeof lengths / sizeof *lengths; k++) {
        fresh(&b);
        check(is(filter(E, sizeof E, &b, lengths[k][0], lengths[k][1], lengths[k][2]), 8, 0, 0, 0), "a short buffer", "reply");
        check(untouched(&b), "a short buffer", "buffers");
    }
}

/* Form E with some bytes changed, the refusal, and whether every lent byte is kept. */
static void refused(const char *name, size_t len, const int (*change)[2], int number, int place) {
    uint8_t *image = (uint8_t *)ending(len);
    lent b;
    memcpy(image, E, len);
    for (; (*change)[0]; change++) {
        image[(*change)[0]] = (uint8_t)(*change)[1];
    }
    fresh(&b);
    check(is(filter(image, len, &b, WIRING_FORM_MAX, WIRING_RUNS_MAX, WIRING_PLACES_MAX), number, place, 0, 0), name, "filter's reply");
    check(untouched(&b), name, "filter's buffers");
    check(is(amend(image, len, PIN, 0, 0, &b), number, place, 0, 0), name, "amend's reply");
    check(untouched(&b), name, "amend's buffers");
}

static void refusals(void) {
    static const int same[][2] = {{0, 0}}, no_places[][2] = {{6, 0}, {0, 0}}, offset[][2] = {{10, 26}, {0, 0}},
                     place[][2] = {{PLACE_0 + 2, 2}, {0, 0}}, state[][2] = {{STATE(3), 3}, {0, 0}},
                     twice[][2] = {{RUN_0 + 20, 1}, {RUN_0 + 22, 2}, {0, 0}}, reversed[][2] = {{LOW, 10}, {0, 0}},
                     loop[][2] = {{STATE(1), 2}, {STATE(2), 2}, {0, 0}}, unfed[][2] = {{PLACE_0 + 4, 0}, {STATE(4), 0}, {0, 0}},
                     many[][2] = {{LOW, 3}, {0, 0}};
    refused("no bytes", 0, same, 1, 0);
    refused("19 bytes", 19, same, 1, 0);
    refused("no places", sizeof E, no_places, 2, 0);
    refused("an offset", sizeof E, offset, 3, 0);
    refused("a byte too few", sizeof E - 1, same, 3, 0);
    refused("a place's byte", sizeof E, place, 4, 2);
    refused("a run's state", sizeof E, state, 5, 3);
    refused("a pair twice", sizeof E, twice, 6, 4);
    refused("low above high", sizeof E, reversed, 7, 0);
    refused("a loop", sizeof E, loop, 9, 2);
    refused("no supply", sizeof E, unfed, 10, 4);
    refused("too many segments", sizeof E, many, 11, 0);
}

static void amendments(void) {
    static const struct {
        uint16_t kind, x, y;
        int number;
    } bad[] = {{0, 0, 0, 12},      {4, 2, 1, 12},           {PIN, RUNS, 0, 12},      {STRIKE, 65535, 0, 12}, {STRIKE, 3, 1, 12},
               {NARROW, 2, 1, 13}, {NARROW, 65535, 0, 13}, {NARROW, 3, 9, 14}, {STRIKE, 0, 0, 14}};
    static const uint16_t p12[2][2][2] = {{{STRIKE, 3}, {PIN, 1}}, {{PIN, 1}, {STRIKE, 3}}};
    static const int counts[2][2] = {{1, 0}, {0, 1}}; /* struck and pinned by the last step */
    static const uint8_t states[RUNS] = {2, 2, 0, 0, 2}, used[RUNS] = {1, 1, 0, 0, 1};
    static const uint16_t segment[PLACES] = {0, 0, 0, 3, 3};
    static const uint16_t clash[2][2] = {{3, 4}, {4, 3}};
    uint8_t end[sizeof E];
    lent first, second;
    size_t k;
    for (k = 0; k < sizeof bad / sizeof *bad; k++) {
        fresh(&first);
        check(is(amend(E, sizeof E, bad[k].kind, bad[k].x, bad[k].y, &first), bad[k].number, 0, 0, 0), "a bad amendment", "reply");
        check(untouched(&first), "a bad amendment", "buffers");
    }
    memcpy(end, E, sizeof E);
    for (k = 0; k < RUNS; k++) {
        end[STATE(k)] = states[k];
    }
    end[LOW] = end[HIGH] = 2;
    for (k = 0; k < 2; k++) {
        fresh(&first);
        fresh(&second);
        check(amend(E, sizeof E, p12[k][0][0], p12[k][0][1], 0, &first).number == 0, "P12", "first reply");
        check(is(amend(first.form + SPARE, sizeof E, p12[k][1][0], p12[k][1][1], 0, &second), 0, 0, counts[k][0], counts[k][1]), "P12",
              "second reply");
        check(written(&second, end, sizeof E, used, RUNS, segment, PLACES), "P12", "buffers");

        fresh(&first);
        fresh(&second);
        check(amend(E, sizeof E, STRIKE, clash[k][0], 0, &first).number == 0, "strike 3 and 4", "first reply");
        check(is(amend(first.form + SPARE, sizeof E, STRIKE, clash[k][1], 0, &second), 14, 0, 0, 0), "strike 3 and 4", "second reply");
        check(untouched(&second), "strike 3 and 4", "buffers");
    }
}

/* One place with a supply and no runs: the wiring has no bytes. */
static void no_runs(void) {
    static const uint8_t image[25] = {3, 0, 1, 0, 20, 0, 1, 0, 2, 0, 21, 0, 0, 0, 3, 0, 21, 0, 1, 0, 1, 1, 0, 1, 0};
    static const uint16_t segment[1] = {0};
    lent b;
    fresh(&b);
    check(is(filter(image, sizeof image, &b, sizeof image, 0, 1), 0, 0, 0, 0), "P1", "reply");
    check(written(&b, image, sizeof image, image, 0, segment, 1), "P1", "buffers");
}

static void put(uint8_t *at, size_t number) {
    at[0] = (uint8_t)(number & 255);
    at[1] = (uint8_t)(number >> 8);
}

/* The largest form, all its runs struck: the lengths of the header suffice, and one less does not. */
static void largest(void) {
    enum { N = WIRING_PLACES_MAX, M = WIRING_RUNS_MAX };
    static const size_t head[10] = {3, 1, 20, N, 2, 20 + N, M, 3, 20 + N + 5 * M, 1};
    uint8_t *image = (uint8_t *)ending(WIRING_FORM_MAX), none[M] = {0};
    uint16_t segment[N];
    size_t k, u = 0, v = 1;
    lent b;
    for (k = 0; k < 10; k++) {
        put(image + 2 * k, head[k]);
    }
    for (k = 0; k < N; k++) {
        image[20 + k] = 1;
        segment[k] = (uint16_t)k;
    }
    for (k = 0; k < M; k++) {
        put(image + 20 + N + 5 * k, u);
        put(image + 20 + N + 5 * k + 2, v);
        image[20 + N + 5 * k + 4] = 0;
        if (++v == N) {
            v = ++u + 1;
        }
    }
    put(image + 20 + N + 5 * M, N);
    put(image + 20 + N + 5 * M + 2, N);
    fresh(&b);
    check(is(filter(image, WIRING_FORM_MAX, &b, WIRING_FORM_MAX - 1, M, N), 8, 0, 0, 0), "largest", "form one short");
    check(is(filter(image, WIRING_FORM_MAX, &b, WIRING_FORM_MAX, M - 1, N), 8, 0, 0, 0), "largest", "wiring one short");
    check(is(filter(image, WIRING_FORM_MAX, &b, WIRING_FORM_MAX, M, N - 1), 8, 0, 0, 0), "largest", "segments one short");
    check(untouched(&b), "largest", "refused");
    check(is(filter(image, WIRING_FORM_MAX, &b, WIRING_FORM_MAX, M, N), 0, 0, 0, 0), "largest", "reply");
    check(written(&b, image, WIRING_FORM_MAX, none, M, segment, N), "largest", "buffers");
}

int main(void) {
    form_e();
    short_buffers();
    refusals();
    amendments();
    no_runs();
    largest();
    printf("%d passed, %d failed\n", passed, failed);
    return failed != 0;
}
