/*
 * Every function of the library, called with nothing, one byte, 976 bytes, 977
 * bytes and every refusal that it can give. A line for each call: what the
 * arrays hold, or the refusal's number and element; and after a refusal every
 * array has to be as it came.
 */
#include <inttypes.h>
#include <stdio.h>
#include <string.h>

#include "wickbadger.h"

#define MOST 1024

/* A message, and how many of its bytes are handed over. */
struct message {
    const char *name;
    uint8_t bytes[MOST];
    size_t length;
};

static struct message made;

/* Channel 1, UCD count 2, start 1000, Ack Time 980, backoffs 0 to 4 and 2 to 6. */
static void begin(const char *name)
{
    static const uint8_t HEAD[16] = {0x01, 0x02, 0x00, 0x00, 0x00, 0x00, 0x03, 0xE8,
                                     0x00, 0x00, 0x03, 0xD4, 0x00, 0x04, 0x02, 0x06};

    memset(&made, 0, sizeof made);
    made.name = name;
    memcpy(made.bytes, HEAD, sizeof HEAD);
    made.length = sizeof HEAD;
}

static void add(uint32_t sid, uint32_t use, uint32_t offset)
{
    uint32_t element = sid << 18 | use << 14 | offset;
    uint8_t *at = made.bytes + made.length;

    at[0] = (uint8_t)(element >> 24);
    at[1] = (uint8_t)(element >> 16);
    at[2] = (uint8_t)(element >> 8);
    at[3] = (uint8_t)element;
    made.length += 4;
    made.bytes[2]++;
}

/* Broadcast Requests of 6, a long grant of 24 to SID 5. */
static void add_good(void)
{
    add(0x3FFF, 1, 0);
    add(5, 6, 6);
    add(0, 7, 30);
}

/* n of 240: Requests of 4, element 100 a long grant to SID 5, the Null at 952, a pending. */
static void add_longest(void)
{
    uint32_t i;

    for (i = 0; i < 238; i++)
        add(i == 100 ? 5 : 0x3FFF, i == 100 ? 6 : 1, 4 * i);
    add(0, 7, 952);
    add(5, 5, 952);
}

/* What an array holds before a call. */
static void fill(uint32_t *array, size_t n)
{
    size_t i;

    for (i = 0; i < n; i++)
        array[i] = 0xA5A50000u + (uint32_t)i;
}

static void show(uint32_t result, const uint32_t *array, size_t n)
{
    size_t i;

    if (result != 0)
        printf(" refused %" PRIu32 " %" PRIu32, WICKBADGER_NUMBER(result),
               WICKBADGER_ELEMENT(result));
    else
        for (i = 0; i < n; i++)
            printf(" %" PRIu32, array[i]);
}

static void check(uint32_t result, const uint32_t *array, const uint32_t *before, size_t n)
{
    if (result != 0 && memcmp(array, before, n * sizeof *array) != 0)
        printf(" CHANGED");
}

static void call_read(void)
{
    uint32_t fields[WICKBADGER_FIELDS], before[WICKBADGER_FIELDS];
    uint32_t result;

    fill(fields, WICKBADGER_FIELDS);
    memcpy(before, fields, sizeof fields);
    result = wickbadger_read(made.bytes, made.length, fields);
    printf("read, %s:", made.name);
    show(result, fields, WICKBADGER_FIELDS);
    check(result, fields, before, WICKBADGER_FIELDS);
    printf("\n");
}

static void call_grant(uint32_t sid, uint32_t k)
{
    uint32_t grant[WICKBADGER_GRANTED], before[WICKBADGER_GRANTED];
    uint32_t result;

    fill(grant, WICKBADGER_GRANTED);
    memcpy(before, grant, sizeof grant);
    result = wickbadger_grant(made.bytes, made.length, sid, k, grant);
    printf("grant %" PRIu32 " to %" PRIu32 ", %s:", k, sid, made.name);
    show(result, grant, WICKBADGER_GRANTED);
    check(result, grant, before, WICKBADGER_GRANTED);
    printf("\n");
}

static void call_hear(const char *name, uint32_t record[WICKBADGER_RECORD], uint32_t present,
                      uint16_t draw)
{
    uint32_t heard[WICKBADGER_HEARD], before[WICKBADGER_HEARD], came[WICKBADGER_RECORD];
    uint32_t result;

    fill(heard, WICKBADGER_HEARD);
    memcpy(before, heard, sizeof heard);
    memcpy(came, record, sizeof came);
    result = wickbadger_hear(record, made.bytes, made.length, present, draw, heard);
    printf("hear, %s:", name);
    show(result, heard, WICKBADGER_HEARD);
    if (result == 0) {
        printf(",");
        show(result, record, WICKBADGER_RECORD);
    }
    check(result, heard, before, WICKBADGER_HEARD);
    check(result, record, came, WICKBADGER_RECORD);
    printf("\n");
}

static void call_offer(const char *name, uint32_t record[WICKBADGER_RECORD], uint32_t size)
{
    uint32_t came[WICKBADGER_RECORD];
    uint32_t result;

    memcpy(came, record, sizeof came);
    result = wickbadger_offer(record, size);
    printf("offer, %s:", name);
    show(result, record, WICKBADGER_RECORD);
    check(result, record, came, WICKBADGER_RECORD);
    printf("\n");
}

static void call_set_up(const char *name, uint32_t sid, uint8_t channel, uint8_t count, uint32_t r)
{
    uint32_t record[WICKBADGER_RECORD], came[WICKBADGER_RECORD];
    uint32_t result;

    fill(record, WICKBADGER_RECORD);
    memcpy(came, record, sizeof came);
    result = wickbadger_set_up(sid, channel, count, r, record);
    printf("set up, %s:", name);
    show(result, record, WICKBADGER_RECORD);
    check(result, record, came, WICKBADGER_RECORD);
    printf("\n");
}

/* SID 5, channel 1, UCD count 2, r 1, nothing heard. */
static void record_of(uint32_t record[WICKBADGER_RECORD], uint32_t state, uint32_t size,
                      uint32_t exponent, uint32_t left, uint32_t retries, uint32_t time)
{
    static const uint32_t FRESH[6] = {5, 1, 2, 1, 0, 0};

    memcpy(record, FRESH, sizeof FRESH);
    record[WICKBADGER_RECORD_STATE] = state;
    record[WICKBADGER_RECORD_SIZE] = size;
    record[WICKBADGER_RECORD_EXPONENT] = exponent;
    record[WICKBADGER_RECORD_LEFT] = left;
    record[WICKBADGER_RECORD_RETRIES] = retries;
    record[WICKBADGER_RECORD_TIME] = time;
}

/* One message through each function that takes one. */
static void each(void)
{
    uint32_t record[WICKBADGER_RECORD];

    call_read();
    call_grant(5, 0);
    record_of(record, WICKBADGER_IDLE, 0, 0, 0, 0, 0);
    call_hear(made.name, record, 990, 0);
}

static void messages(void)
{
    begin("nothing");
    made.length = 0;
    each();
    begin("one byte");
    made.length = 1;
    each();
    begin("15 bytes");
    made.length = 15;
    each();
    begin("n 0");
    each();
    begin("n 241");
    add_longest();
    add(5, 8, 952);
    each();
    begin("976 bytes");
    add_longest();
    each();
    call_grant(5, 1);
    begin("977 bytes");
    add_longest();
    made.length++;
    each();
    begin("data backoff 7 to 6");
    add_good();
    made.bytes[14] = 7;
    each();
    begin("use 9");
    add(0x3FFF, 1, 0);
    add(5, 9, 6);
    add(0, 7, 30);
    each();
    begin("Null first");
    add(0, 7, 0);
    each();
    begin("use 8 before the Null");
    add(0x3FFF, 1, 0);
    add(5, 8, 6);
    add(0, 7, 30);
    each();
    begin("no Null");
    add(0x3FFF, 1, 0);
    add(5, 6, 6);
    each();
    begin("SID 0 in a Request");
    add(0, 1, 0);
    add(0, 7, 30);
    each();
    begin("first offset 5");
    add(0x3FFF, 1, 5);
    add(0, 7, 30);
    each();
    begin("map length 4097");
    add(0x3FFF, 1, 0);
    add(0, 7, 4097);
    each();
    begin("grant of 256");
    add(5, 6, 0);
    add(0, 7, 256);
    each();
    begin("the good one");
    add_good();
    each();
    call_grant(0x3FFF, 0);
}

static void set_ups(void)
{
    call_set_up("SID 1, r 1", 1, 0, 0, 1);
    call_set_up("SID 8191, r 16", 0x1FFF, 255, 255, 16);
    call_set_up("SID 0", 0, 1, 2, 1);
    call_set_up("SID 8192", 0x2000, 1, 2, 1);
    call_set_up("r 0", 5, 1, 2, 0);
    call_set_up("r 17", 5, 1, 2, 17);
    call_set_up("SID 0, r 0", 0, 1, 2, 0);
}

/* A record at fault, offered a packet and handed a MAP. */
static void fault(const char *name, uint32_t record[WICKBADGER_RECORD])
{
    call_offer(name, record, 12);
    call_hear(name, record, 990, 0);
}

static void records(void)
{
    static const struct {
        const char *name;
        int at;
        uint32_t number;
    } CHANGES[] = {
        {"channel 256", WICKBADGER_RECORD_CHANNEL, 256},
        {"UCD count 256", WICKBADGER_RECORD_COUNT, 256},
        {"flag 2", WICKBADGER_RECORD_KNOWN, 2},
        {"state 4", WICKBADGER_RECORD_STATE, 4},
        {"record's SID 0", WICKBADGER_RECORD_SID, 0},
        {"record's SID 8192", WICKBADGER_RECORD_SID, 0x2000},
        {"record's r 0", WICKBADGER_RECORD_R, 0},
        {"record's r 17", WICKBADGER_RECORD_R, 17},
    };
    uint32_t record[WICKBADGER_RECORD];
    size_t i;

    begin("the good one");
    add_good();
    for (i = 0; i < sizeof CHANGES / sizeof *CHANGES; i++) {
        record_of(record, WICKBADGER_IDLE, 0, 0, 0, 0, 0);
        record[CHANGES[i].at] = CHANGES[i].number;
        fault(CHANGES[i].name, record);
    }
    record_of(record, 4, 0, 0, 0, 0, 0);
    record[WICKBADGER_RECORD_SID] = 0;
    fault("state 4 before SID 0", record);
    record_of(record, WICKBADGER_WANTING, 0, 0, 0, 0, 0);
    fault("Wanting, size 0", record);
    record_of(record, WICKBADGER_WANTING, 256, 0, 0, 0, 0);
    fault("Wanting, size 256", record);
    record_of(record, WICKBADGER_DEFERRING, 12, 16, 0, 0, 0);
    fault("Deferring, exponent 16", record);
    record_of(record, WICKBADGER_DEFERRING, 12, 2, 32768, 0, 0);
    fault("Deferring, 32768 left", record);
    record_of(record, WICKBADGER_DEFERRING, 12, 2, 0, 17, 0);
    fault("Deferring, retries 17", record);
    record_of(record, WICKBADGER_WAITING, 12, 16, 0, 0, 0);
    fault("Waiting, exponent 16", record);
    record_of(record, WICKBADGER_WAITING, 12, 2, 0, 17, 0);
    fault("Waiting, retries 17", record);
}

static void offers(void)
{
    uint32_t record[WICKBADGER_RECORD];

    record_of(record, WICKBADGER_IDLE, 0, 0, 0, 0, 0);
    call_offer("size 0", record, 0);
    call_offer("size 256", record, 256);
    call_offer("size 1", record, 1);
    call_offer("busy", record, 12);
    call_offer("busy, size 0", record, 0);
    record[WICKBADGER_RECORD_R] = 0;
    call_offer("r 0, busy, size 0", record, 0);
    record_of(record, WICKBADGER_IDLE, 999, 99, 99999, 99, 9);
    call_offer("Idle, other fields anything", record, 255);
}

static void hearings(void)
{
    uint32_t record[WICKBADGER_RECORD];

    begin("the good one");
    add_good();
    record_of(record, WICKBADGER_IDLE, 0, 0, 0, 0, 0);
    record[WICKBADGER_RECORD_CHANNEL] = 3;
    call_hear("channel 3", record, 990, 0);
    record_of(record, WICKBADGER_IDLE, 0, 0, 0, 0, 0);
    record[WICKBADGER_RECORD_COUNT] = 3;
    call_hear("UCD count 3", record, 990, 0);
    record_of(record, WICKBADGER_IDLE, 0, 0, 0, 0, 0);
    record[WICKBADGER_RECORD_KNOWN] = 1;
    record[WICKBADGER_RECORD_END] = 1001;
    call_hear("end 1001", record, 990, 0);
    record_of(record, WICKBADGER_IDLE, 0, 0, 0, 0, 0);
    record[WICKBADGER_RECORD_END] = 1001;
    call_hear("end 1001, not known", record, 990, 0);
    record_of(record, WICKBADGER_IDLE, 0, 0, 0, 0, 0);
    call_hear("present 1000", record, 1000, 0);
    record_of(record, WICKBADGER_IDLE, 999, 99, 99999, 99, 9);
    call_hear("Idle, other fields anything", record, 999, 0);
    begin("Requests of 6");
    add(0x3FFF, 1, 0);
    add(0, 7, 6);
    record_of(record, WICKBADGER_WANTING, 12, 0, 0, 0, 0);
    call_hear("Wanting, draw 11", record, 990, 11);
    record_of(record, WICKBADGER_DEFERRING, 12, 4, 11, 0, 0);
    call_hear("Deferring, 11 left", record, 990, 0);
    record_of(record, WICKBADGER_WAITING, 12, 2, 0, 0, 980);
    call_hear("Waiting since 980", record, 990, 0);
    record_of(record, WICKBADGER_WAITING, 12, 2, 0, 0, 979);
    call_hear("Waiting since 979, draw 9", record, 990, 9);
    record_of(record, WICKBADGER_WAITING, 12, 2, 0, 16, 979);
    call_hear("Waiting since 979, retries 16", record, 990, 9);
}

int main(void)
{
    messages();
    set_ups();
    records();
    offers();
    hearings();
    return 0;
}
