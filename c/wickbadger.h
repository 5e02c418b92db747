/*
 * wickbadger.h - a modem's station on a shared upstream channel: when it may speak.
 *
 * The functions of libfirmware.a. They keep nothing between calls and allocate
 * nothing: all that they know is in what they are handed.
 *
 * RESULT. Every function gives 0, or a refusal: its number in bits 0 to 7, and
 * in bits 8 to 15 the element of the message that is at fault (counted from 0;
 * n where the Null is missing; 0 for numbers 1 to 4 and from 11 on). A refusal
 * leaves all that was lent as it came.
 *
 * BYTES. A message is a MAP body, from the channel ID byte on. `bytes` must
 * point to `length` bytes and must not be NULL, even where `length` is 0.
 * Arrays must not overlap each other or the bytes.
 */
#ifndef WICKBADGER_H
#define WICKBADGER_H

#include <stddef.h>
#include <stdint.h>

#ifdef __cplusplus
extern "C" {
#endif

/* A result's two parts. */
#define WICKBADGER_NUMBER(result) ((uint32_t)(result) & 0xFFu)
#define WICKBADGER_ELEMENT(result) (((uint32_t)(result) >> 8) & 0xFFu)

/* The numbers of the refusals. */
enum {
    WICKBADGER_SHORT = 1,        /* fewer than 16 bytes */
    WICKBADGER_COUNT = 2,        /* n is 0 or over 240 */
    WICKBADGER_LENGTH = 3,       /* bytes differ from 16 + 4n */
    WICKBADGER_BACKOFF = 4,      /* a backoff over 15, or a start above its end */
    WICKBADGER_USE = 5,          /* an element's use is not 1 to 8 */
    WICKBADGER_SID = 6,          /* a SID that is not allowed there */
    WICKBADGER_PLACE = 7,        /* an element's offset is out of place */
    WICKBADGER_SPAN = 8,         /* an offset over 4,096 up to the Null */
    WICKBADGER_GRANT = 9,        /* the grant that this element closes is over 255 */
    WICKBADGER_NULL = 10,        /* the Null is missing, or an element is on the wrong side of it */
    WICKBADGER_CHANNEL = 12,     /* the MAP is another channel's */
    WICKBADGER_DESCRIPTION = 13, /* the MAP's UCD count differs from the station's */
    WICKBADGER_STALE = 14,       /* the MAP starts before the remembered end */
    WICKBADGER_LATE = 15,        /* the present is not earlier than the MAP's start */
    WICKBADGER_BUSY = 16,        /* an offer while the station is not Idle */
    WICKBADGER_SIZE = 17         /* a number out of its range */
};

/* What wickbadger_read fills. */
enum {
    WICKBADGER_FIELDS = 11,
    WICKBADGER_FIELD_CHANNEL = 0,
    WICKBADGER_FIELD_COUNT = 1,
    WICKBADGER_FIELD_N = 2,
    WICKBADGER_FIELD_START = 3,
    WICKBADGER_FIELD_ACK = 4,
    WICKBADGER_FIELD_RANGING_START = 5,
    WICKBADGER_FIELD_RANGING_END = 6,
    WICKBADGER_FIELD_DATA_START = 7,
    WICKBADGER_FIELD_DATA_END = 8,
    WICKBADGER_FIELD_NULL = 9,    /* the element that is the Null */
    WICKBADGER_FIELD_LENGTH = 10  /* the map length */
};

/*
 * A station's record. Fields that a state does not have are ignored coming in
 * and 0 going out: Idle has none of size, exponent, left, retries and time;
 * Wanting has the size; Deferring all but the time; Waiting all but `left`.
 */
enum {
    WICKBADGER_RECORD = 12,
    WICKBADGER_RECORD_SID = 0,
    WICKBADGER_RECORD_CHANNEL = 1,
    WICKBADGER_RECORD_COUNT = 2,
    WICKBADGER_RECORD_R = 3,        /* the request length */
    WICKBADGER_RECORD_KNOWN = 4,    /* 1 once a MAP was accepted, else 0 */
    WICKBADGER_RECORD_END = 5,      /* its end; ignored, or 0, where none is known */
    WICKBADGER_RECORD_STATE = 6,
    WICKBADGER_RECORD_SIZE = 7,     /* the packet's, in mini-slots */
    WICKBADGER_RECORD_EXPONENT = 8,
    WICKBADGER_RECORD_LEFT = 9,     /* opportunities left to pass */
    WICKBADGER_RECORD_RETRIES = 10,
    WICKBADGER_RECORD_TIME = 11     /* the request's first mini-slot */
};

enum {
    WICKBADGER_IDLE = 0,
    WICKBADGER_WANTING = 1,
    WICKBADGER_DEFERRING = 2,
    WICKBADGER_WAITING = 3
};

/* What wickbadger_hear fills. */
enum {
    WICKBADGER_HEARD = 3,
    WICKBADGER_HEARD_BURSTS = 0, /* how many grants of this MAP are the station's */
    WICKBADGER_HEARD_SENT = 1,   /* 1 if a request is sent in this MAP, else 0 */
    WICKBADGER_HEARD_FIRST = 2   /* its first mini-slot; 0 where none is sent */
};

/* What wickbadger_grant fills. */
enum {
    WICKBADGER_GRANTED = 3,
    WICKBADGER_GRANTED_FOUND = 0,  /* 1 if there is such a grant, else 0 */
    WICKBADGER_GRANTED_FIRST = 1,  /* its first mini-slot; 0 where there is none */
    WICKBADGER_GRANTED_LENGTH = 2  /* its mini-slots; 0 where there is none */
};

/*
 * Reads a message.
 * Refusals: 1 to 10.
 */
uint32_t wickbadger_read(const uint8_t *bytes, size_t length, uint32_t fields[WICKBADGER_FIELDS]);

/*
 * The k-th grant to a SID before the Null, k from 0. There may be none, as for
 * any SID that is not unicast (0x0001..0x1FFF): that is no refusal.
 * Refusals: 1 to 10, the message's.
 */
uint32_t wickbadger_grant(const uint8_t *bytes, size_t length, uint32_t sid, uint32_t k,
                          uint32_t grant[WICKBADGER_GRANTED]);

/*
 * Sets up a station, Idle, that has heard nothing yet.
 * Refusals: 6 (the SID is not unicast), 17 (r is not 1 to 16).
 */
uint32_t wickbadger_set_up(uint32_t sid, uint8_t channel, uint8_t count, uint32_t r,
                           uint32_t record[WICKBADGER_RECORD]);

/*
 * Offers a packet of 1 to 255 mini-slots to an Idle station.
 * Refusals, in this order: 17 (a channel or count over 255, a flag that is not
 * 0 or 1, a state number over 3: not a record), 6 and 17 (the record's own: its
 * SID; r or a field that its state has), 16 (not Idle), 17 (the size).
 */
uint32_t wickbadger_offer(uint32_t record[WICKBADGER_RECORD], uint32_t size);

/*
 * Hears a MAP at the mini-slot `present`, with 16 random bits.
 * Refusals, in this order: 17, 6 and 17 (the record's, as for an offer), 1 to
 * 10 (the message's), 12, 13, 14 (not before a first MAP was heard), 15.
 */
uint32_t wickbadger_hear(uint32_t record[WICKBADGER_RECORD], const uint8_t *bytes, size_t length,
                         uint32_t present, uint16_t draw, uint32_t heard[WICKBADGER_HEARD]);

#ifdef __cplusplus
}
#endif

#endif
