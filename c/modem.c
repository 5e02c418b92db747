/* A modem's firmware in little: one station, one packet, three MAPs. */
#include <inttypes.h>
#include <stdio.h>

#include "wickbadger.h"

static const char *const STATES[] = {"Idle", "Wanting", "Deferring", "Waiting"};

/* SID 5, channel 1, UCD count 2; data backoff from 2 to 6. */

/* 1000 to 1010: broadcast Requests of 6, and a long grant of 4 to another SID. */
static const uint8_t FIRST[] = {
    0x01, 0x02, 0x03, 0x00, 0x00, 0x00, 0x03, 0xE8, 0x00, 0x00, 0x03, 0xD4, 0x00, 0x04, 0x02, 0x06,
    0xFF, 0xFC, 0x40, 0x00, /* (0x3FFF, 1, 0) */
    0x00, 0x1D, 0x80, 0x06, /* (7, 6, 6) */
    0x00, 0x01, 0xC0, 0x0A, /* (0, 7, 10) */
};

/* 1010 to 1014: broadcast Requests of 4; the request is pending. */
static const uint8_t SECOND[] = {
    0x01, 0x02, 0x03, 0x00, 0x00, 0x00, 0x03, 0xF2, 0x00, 0x00, 0x03, 0xE6, 0x00, 0x04, 0x02, 0x06,
    0xFF, 0xFC, 0x40, 0x00, /* (0x3FFF, 1, 0) */
    0x00, 0x01, 0xC0, 0x04, /* (0, 7, 4) */
    0x00, 0x15, 0x40, 0x04, /* (5, 5, 4) */
};

/* 1014 to 1034: the grant. */
static const uint8_t THIRD[] = {
    0x01, 0x02, 0x03, 0x00, 0x00, 0x00, 0x03, 0xF6, 0x00, 0x00, 0x03, 0xF4, 0x00, 0x04, 0x02, 0x06,
    0xFF, 0xFC, 0x40, 0x00, /* (0x3FFF, 1, 0) */
    0x00, 0x15, 0x80, 0x08, /* (5, 6, 8) */
    0x00, 0x01, 0xC0, 0x14, /* (0, 7, 20) */
};

static void refused(const char *what, uint32_t result)
{
    printf("%s: refused %" PRIu32 " at element %" PRIu32 "\n", what, WICKBADGER_NUMBER(result),
           WICKBADGER_ELEMENT(result));
}

static void tell(const uint32_t record[WICKBADGER_RECORD])
{
    uint32_t state = record[WICKBADGER_RECORD_STATE];

    printf("  %s", STATES[state]);
    if (state != WICKBADGER_IDLE)
        printf(", size %" PRIu32, record[WICKBADGER_RECORD_SIZE]);
    if (state == WICKBADGER_DEFERRING)
        printf(", %" PRIu32 " left", record[WICKBADGER_RECORD_LEFT]);
    if (state == WICKBADGER_WAITING)
        printf(", asked at %" PRIu32, record[WICKBADGER_RECORD_TIME]);
    printf("\n");
}

/* One MAP: the record changes, the request goes out, and every burst of this SID is sent. */
static int hear(uint32_t record[WICKBADGER_RECORD], const uint8_t *bytes, size_t length,
                uint32_t present, uint16_t draw)
{
    uint32_t fields[WICKBADGER_FIELDS];
    uint32_t heard[WICKBADGER_HEARD];
    uint32_t result;
    uint32_t k;

    result = wickbadger_read(bytes, length, fields);
    if (result != 0) {
        refused("read", result);
        return 1;
    }
    printf("MAP %" PRIu32 " to %" PRIu32 ", %" PRIu32 " elements\n", fields[WICKBADGER_FIELD_START],
           fields[WICKBADGER_FIELD_START] + fields[WICKBADGER_FIELD_LENGTH],
           fields[WICKBADGER_FIELD_N]);
    result = wickbadger_hear(record, bytes, length, present, draw, heard);
    if (result != 0) {
        refused("hear", result);
        return 1;
    }
    if (heard[WICKBADGER_HEARD_SENT])
        printf("  request sent at %" PRIu32 "\n", heard[WICKBADGER_HEARD_FIRST]);
    for (k = 0; k < heard[WICKBADGER_HEARD_BURSTS]; k++) {
        uint32_t grant[WICKBADGER_GRANTED];

        result = wickbadger_grant(bytes, length, record[WICKBADGER_RECORD_SID], k, grant);
        if (result != 0 || !grant[WICKBADGER_GRANTED_FOUND]) {
            refused("grant", result);
            return 1;
        }
        printf("  data burst at %" PRIu32 ", %" PRIu32 " mini-slots\n",
               grant[WICKBADGER_GRANTED_FIRST], grant[WICKBADGER_GRANTED_LENGTH]);
    }
    tell(record);
    return 0;
}

int main(void)
{
    uint32_t record[WICKBADGER_RECORD];
    uint32_t result;

    result = wickbadger_set_up(5, 1, 2, 1, record);
    if (result != 0) {
        refused("set up", result);
        return 1;
    }
    printf("station %" PRIu32 "\n", record[WICKBADGER_RECORD_SID]);
    tell(record);
    result = wickbadger_offer(record, 12);
    if (result != 0) {
        refused("offer", result);
        return 1;
    }
    printf("packet of 12\n");
    tell(record);
    /* A second packet has to wait. */
    refused("offer", wickbadger_offer(record, 3));
    /* 11 mod 2^2 is 3: three opportunities pass, and the request goes out in the fourth. */
    if (hear(record, FIRST, sizeof FIRST, 990, 11) || hear(record, SECOND, sizeof SECOND, 1005, 0)
        || hear(record, THIRD, sizeof THIRD, 1012, 0))
        return 1;
    /* The same MAP again is stale. */
    {
        uint32_t heard[WICKBADGER_HEARD];

        refused("hear", wickbadger_hear(record, THIRD, sizeof THIRD, 1012, 0, heard));
    }
    return 0;
}
