/*
 * The proved functions against plain C that does the same checks, or against an
 * older library's in its place: nanoseconds a call and their ratio, best of several
 * rounds taken in turn. First both are held to the same answers on the messages
 * that are timed.
 */
#define _POSIX_C_SOURCE 199309L
#include <stdio.h>
#include <string.h>
#include <time.h>

#include "plain.h"
#include "wickbadger.h"

#ifndef OTHER
#define OTHER "plain ns"
#endif

enum { ROUNDS = 201, ELEMENTS = 240, BYTES = 16 + 4 * ELEMENTS };

static uint8_t message[BYTES];
static volatile uint32_t sink;

static void put(uint8_t *b, uint32_t w)
{
    for (int i = 0; i < 4; i++)
        b[i] = (uint8_t)(w >> (24 - 8 * i));
}

/* A MAP of n elements: a broadcast Request, grants to others (a Request/Data in each eighth place), the Null, a pending. */
static size_t make(uint32_t n)
{
    const uint8_t head[16] = {1, 2, (uint8_t)n, 0, 0, 0, 3, 232, 0, 0, 3, 212, 0, 4, 2, 6};
    uint32_t offset = 0;
    memcpy(message, head, 16);
    for (uint32_t i = 0; i < n; i++) {
        uint32_t sid = i == 0 ? 0x3FFF : i % 8 == 7 ? 0x3FF4 : 100 + i, use = i == 0 ? 1 : i % 8 == 7 ? 2 : 6;
        if (i == n - 1 - (n > 2)) {
            sid = 0;
            use = 7;
        } else if (n > 2 && i == n - 1) {
            sid = 9;
            use = 5;
        }
        put(message + 16 + 4 * i, sid << 18 | use << 14 | offset);
        if (use != 7)
            offset += i < n - 2 ? 12 : 0;
    }
    if (n == 2)
        put(message + 20, 7 << 14 | 12);
    else
        put(message + 16 + 4 * (n - 1), 9 << 18 | 5 << 14 | 12 * (n - 2));
    return 16 + 4 * (size_t)n;
}

static double now(void)
{
    struct timespec t;
    clock_gettime(CLOCK_MONOTONIC, &t);
    return t.tv_sec * 1e9 + t.tv_nsec;
}

typedef uint32_t (*hears)(uint32_t *, const uint8_t *, size_t, uint32_t, uint16_t, uint32_t *);
typedef uint32_t (*reads)(const uint8_t *, size_t, uint32_t *);
typedef uint32_t (*offers)(uint32_t *, uint32_t);

static double time_read(reads f, size_t length, int calls)
{
    uint32_t fields[11];
    double from = now();
    for (int i = 0; i < calls; i++)
        sink += f(message, length, fields);
    return (now() - from) / calls;
}

static double time_hear(hears f, const uint32_t *record, size_t length, int calls)
{
    uint32_t heard[3], r[12];
    double from = now();
    for (int i = 0; i < calls; i++) {
        memcpy(r, record, sizeof r);
        sink += f(r, message, length, 990, 7, heard);
    }
    return (now() - from) / calls;
}

static double time_offer(offers f, const uint32_t *record, int calls)
{
    uint32_t r[12];
    double from = now();
    for (int i = 0; i < calls; i++) {
        memcpy(r, record, sizeof r);
        sink += f(r, 1 + (uint32_t)i % 255);
    }
    return (now() - from) / calls;
}

static void row(const char *what, uint32_t n, double ours, double plain)
{
    printf("%-22s %4u  %8.1f %8.1f  %5.2f\n", what, n, ours, plain, ours / plain);
}

static int same_hear(const uint32_t *record, size_t length)
{
    uint32_t a[12], b[12], x[3] = {0, 0, 0}, y[3] = {0, 0, 0};
    memcpy(a, record, sizeof a);
    memcpy(b, record, sizeof b);
    return wickbadger_hear(a, message, length, 990, 7, x) == plain_hear(b, message, length, 990, 7, y) && !memcmp(a, b, sizeof a) &&
           !memcmp(x, y, sizeof x);
}

int main(void)
{
    static const uint32_t sizes[] = {2, 20, 240};
    static const struct {
        const char *name;
        uint32_t record[12];
    } stations[] = {
        {"hear, idle", {5, 1, 2, 1, 0, 0, 0, 0, 0, 0, 0, 0}},
        {"hear, deferring", {5, 1, 2, 1, 0, 0, 2, 24, 15, 30000, 3, 0}},
        {"hear, waiting", {5, 1, 2, 1, 0, 0, 3, 24, 4, 0, 3, 985}},
    };
    printf("%-22s %4s  %8s %8s  %5s\n", "call", "n", "ours ns", OTHER, "ratio");
    for (int k = 0; k < 3; k++) {
        size_t length = make(sizes[k]);
        int calls = 400000 / (int)(sizes[k] + 8);
        uint32_t f[11], g[11];
        if (wickbadger_read(message, length, f) != 0 || plain_read(message, length, g) != 0 || memcmp(f, g, sizeof f)) {
            printf("the readings differ at n %u\n", sizes[k]);
            return 1;
        }
        double ours = 1e18, plain = 1e18;
        for (int i = 0; i < ROUNDS; i++) {
            double a = time_read(wickbadger_read, length, calls), b = time_read(plain_read, length, calls);
            ours = a < ours ? a : ours;
            plain = b < plain ? b : plain;
        }
        row("read", sizes[k], ours, plain);
        for (int s = 0; s < 3; s++) {
            if (!same_hear(stations[s].record, length)) {
                printf("the hearings differ: %s, n %u\n", stations[s].name, sizes[k]);
                return 1;
            }
            ours = plain = 1e18;
            for (int i = 0; i < ROUNDS; i++) {
                double a = time_hear(wickbadger_hear, stations[s].record, length, calls);
                double b = time_hear(plain_hear, stations[s].record, length, calls);
                ours = a < ours ? a : ours;
                plain = b < plain ? b : plain;
            }
            row(stations[s].name, sizes[k], ours, plain);
        }
    }
    double ours = 1e18, plain = 1e18;
    for (int i = 0; i < ROUNDS; i++) {
        double a = time_offer(wickbadger_offer, stations[0].record, 100000), b = time_offer(plain_offer, stations[0].record, 100000);
        ours = a < ours ? a : ours;
        plain = b < plain ? b : plain;
    }
    row("offer", 0, ours, plain);
    return 0;
}
