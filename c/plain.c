/* The MAP body and the station of document 01 in plain C. */
#include "plain.h"

#include "wickbadger.h"

struct element {
    uint32_t sid, use, offset;
};

static inline uint32_t word(const uint8_t *b)
{
    return (uint32_t)b[0] << 24 | (uint32_t)b[1] << 16 | (uint32_t)b[2] << 8 | b[3];
}

static inline struct element element(const uint8_t *bytes, uint32_t i)
{
    uint32_t w = word(bytes + 16 + 4 * i);
    struct element e = {w >> 18, w >> 14 & 15, w & 0x3FFF};
    return e;
}

static inline int within(uint32_t low, uint32_t high, uint32_t x)
{
    return low <= x && x <= high;
}

static inline int unicast(uint32_t sid)
{
    return within(0x0001, 0x1FFF, sid);
}

static inline int granting(uint32_t use)
{
    return use == 5 || use == 6;
}

static inline int sid_allowed(uint32_t use, uint32_t sid)
{
    if (use == 1)
        return within(0x0001, 0x3DFF, sid) || within(0x3E01, 0x3EFF, sid) || sid == 0x3FFF;
    if (use == 2)
        return within(0x2000, 0x3DFF, sid) || within(0x3FF1, 0x3FFE, sid);
    if (use == 3)
        return within(0x2000, 0x3DFF, sid) || sid == 0x3FFF;
    if (use == 7)
        return sid == 0;
    return unicast(sid);
}

static inline int bad_backoff(uint8_t start, uint8_t end)
{
    return start > 15 || end > 15 || start > end;
}

static inline uint32_t refusal(uint32_t number, uint32_t place)
{
    return number | place << 8;
}

/* What is wrong with an element: i from 0, the one before it, and the map length once the Null has closed it. */
static inline uint32_t fault(struct element e, uint32_t i, struct element before, int closed, uint32_t length)
{
    if (!within(1, 8, e.use))
        return WICKBADGER_USE;
    if (closed ? !(granting(e.use) || e.use == 8) : e.use == 8 || (i == 0 && e.use == 7))
        return WICKBADGER_NULL;
    if (!sid_allowed(e.use, e.sid))
        return WICKBADGER_SID;
    if (closed ? e.offset != length : i == 0 ? e.offset != 0 : e.offset <= before.offset)
        return WICKBADGER_PLACE;
    if (!closed && e.offset > 4096)
        return WICKBADGER_SPAN;
    if (!closed && i > 0 && granting(before.use) && e.offset - before.offset > 255)
        return WICKBADGER_GRANT;
    return 0;
}

uint32_t plain_read(const uint8_t *bytes, size_t length, uint32_t fields[11])
{
    if (length < 16)
        return refusal(WICKBADGER_SHORT, 0);
    uint32_t n = bytes[2];
    if (n == 0 || n > 240)
        return refusal(WICKBADGER_COUNT, 0);
    if (length != 16 + 4 * (size_t)n)
        return refusal(WICKBADGER_LENGTH, 0);
    if (bad_backoff(bytes[12], bytes[13]) || bad_backoff(bytes[14], bytes[15]))
        return refusal(WICKBADGER_BACKOFF, 0);
    struct element before = {0, 0, 0};
    uint32_t null = 0, end = 0;
    int closed = 0;
    for (uint32_t i = 0; i < n; i++) {
        struct element e = element(bytes, i);
        uint32_t number = fault(e, i, before, closed, end);
        if (number != 0)
            return refusal(number, i);
        if (!closed && e.use == 7) {
            closed = 1;
            null = i;
            end = e.offset;
        }
        before = e;
    }
    if (!closed)
        return refusal(WICKBADGER_NULL, n);
    fields[0] = bytes[0];
    fields[1] = bytes[1];
    fields[2] = n;
    fields[3] = word(bytes + 4);
    fields[4] = word(bytes + 8);
    for (int i = 0; i < 4; i++)
        fields[5 + i] = bytes[12 + i];
    fields[9] = null;
    fields[10] = end;
    return 0;
}

static inline int bad_size(uint32_t size)
{
    return !within(1, 255, size);
}

static inline uint32_t record_fault(const uint32_t s[12])
{
    uint32_t state = s[WICKBADGER_RECORD_STATE];
    if (s[WICKBADGER_RECORD_CHANNEL] > 255 || s[WICKBADGER_RECORD_COUNT] > 255 || s[WICKBADGER_RECORD_KNOWN] > 1 || state > 3)
        return WICKBADGER_SIZE;
    if (!unicast(s[WICKBADGER_RECORD_SID]))
        return WICKBADGER_SID;
    if (!within(1, 16, s[WICKBADGER_RECORD_R]))
        return WICKBADGER_SIZE;
    if (state != WICKBADGER_IDLE && bad_size(s[WICKBADGER_RECORD_SIZE]))
        return WICKBADGER_SIZE;
    if (state >= WICKBADGER_DEFERRING && (s[WICKBADGER_RECORD_EXPONENT] > 15 || s[WICKBADGER_RECORD_RETRIES] > 16))
        return WICKBADGER_SIZE;
    if (state == WICKBADGER_DEFERRING && s[WICKBADGER_RECORD_LEFT] > 32767)
        return WICKBADGER_SIZE;
    return 0;
}

static inline void become(uint32_t s[12], uint32_t state, uint32_t size, uint32_t exponent, uint32_t left, uint32_t retries, uint32_t time)
{
    s[WICKBADGER_RECORD_STATE] = state;
    s[WICKBADGER_RECORD_SIZE] = size;
    s[WICKBADGER_RECORD_EXPONENT] = exponent;
    s[WICKBADGER_RECORD_LEFT] = left;
    s[WICKBADGER_RECORD_RETRIES] = retries;
    s[WICKBADGER_RECORD_TIME] = time;
}

uint32_t plain_offer(uint32_t s[12], uint32_t size)
{
    uint32_t number = record_fault(s);
    if (number != 0)
        return number;
    if (s[WICKBADGER_RECORD_STATE] != WICKBADGER_IDLE)
        return WICKBADGER_BUSY;
    if (bad_size(size))
        return WICKBADGER_SIZE;
    if (s[WICKBADGER_RECORD_KNOWN] == 0)
        s[WICKBADGER_RECORD_END] = 0;
    become(s, WICKBADGER_WANTING, size, 0, 0, 0, 0);
    return 0;
}

static inline int earlier(uint32_t a, uint32_t b)
{
    return b - a - 1 < 0x7FFFFFFF;
}

/* What the elements hold for a station. */
struct found {
    uint32_t bursts, own, first;
    int pending;
};

static inline struct found find(const uint8_t *bytes, const uint32_t fields[11], uint32_t sid, uint32_t r)
{
    struct found f = {0, 0, 0, 0};
    uint32_t n = fields[2], null = fields[9];
    struct element e = element(bytes, 0);
    for (uint32_t i = 0; i < null; i++) {
        struct element next = element(bytes, i + 1);
        if (e.sid == sid) {
            if (granting(e.use))
                f.bursts++;
            else if (e.use == 1 && !f.own && next.offset - e.offset >= r) {
                f.own = 1;
                f.first = fields[3] + e.offset;
            }
        }
        e = next;
    }
    for (uint32_t i = null + 1; i < n && !f.pending; i++) {
        e = element(bytes, i);
        f.pending = granting(e.use) && e.sid == sid;
    }
    return f;
}

/* Passes contention opportunities, interval by interval: 1 and where it sends, or 0 and how many are left. */
static inline int pass(const uint8_t *bytes, const uint32_t fields[11], uint32_t r, uint32_t *left)
{
    struct element e = element(bytes, 0);
    for (uint32_t i = 0; i < fields[9]; i++) {
        struct element next = element(bytes, i + 1);
        uint32_t step = 0;
        if (e.use == 1 && e.sid == 0x3FFF)
            step = r;
        else if (e.use == 2 && within(0x3FF1, 0x3FFE, e.sid) && e.sid - 0x3FF0 >= r)
            step = e.sid - 0x3FF0;
        if (step != 0) {
            uint32_t count = (next.offset - e.offset) / step;
            if (*left < count) {
                *left = fields[3] + e.offset + *left * step;
                return 1;
            }
            *left -= count;
        }
        e = next;
    }
    return 0;
}

/* Steps 2 and 3: 1 if the station is then deferring. */
static inline int settle(uint32_t s[12], const uint32_t fields[11], int pending, uint16_t draw)
{
    uint32_t state = s[WICKBADGER_RECORD_STATE], size = s[WICKBADGER_RECORD_SIZE];
    if (state == WICKBADGER_WAITING) {
        if (pending || !earlier(s[WICKBADGER_RECORD_TIME], fields[4]))
            return 0;
        uint32_t retries = s[WICKBADGER_RECORD_RETRIES] + 1;
        if (retries > 16) {
            become(s, WICKBADGER_IDLE, 0, 0, 0, 0, 0);
            return 0;
        }
        uint32_t exponent = s[WICKBADGER_RECORD_EXPONENT] + 1;
        if (exponent > fields[8])
            exponent = fields[8];
        become(s, WICKBADGER_DEFERRING, size, exponent, draw & ((1u << exponent) - 1), retries, 0);
        return 1;
    }
    if (state == WICKBADGER_WANTING) {
        become(s, WICKBADGER_DEFERRING, size, fields[7], draw & ((1u << fields[7]) - 1), 0, 0);
        return 1;
    }
    return state == WICKBADGER_DEFERRING;
}

static inline uint32_t hear_fault(const uint32_t s[12], const uint32_t fields[11], uint32_t present)
{
    if (fields[0] != s[WICKBADGER_RECORD_CHANNEL])
        return WICKBADGER_CHANNEL;
    if (fields[1] != s[WICKBADGER_RECORD_COUNT])
        return WICKBADGER_DESCRIPTION;
    if (s[WICKBADGER_RECORD_KNOWN] && fields[3] - s[WICKBADGER_RECORD_END] > 0x7FFFFFFF)
        return WICKBADGER_STALE;
    if (!earlier(present, fields[3]))
        return WICKBADGER_LATE;
    return 0;
}

uint32_t plain_hear(uint32_t s[12], const uint8_t *bytes, size_t length, uint32_t present, uint16_t draw, uint32_t heard[3])
{
    uint32_t fields[11], number = record_fault(s);
    if (number != 0)
        return number;
    number = plain_read(bytes, length, fields);
    if (number != 0)
        return number;
    number = hear_fault(s, fields, present);
    if (number != 0)
        return number;
    struct found f = find(bytes, fields, s[WICKBADGER_RECORD_SID], s[WICKBADGER_RECORD_R]);
    s[WICKBADGER_RECORD_KNOWN] = 1;
    s[WICKBADGER_RECORD_END] = fields[3] + fields[10];
    heard[0] = f.bursts;
    heard[1] = heard[2] = 0;
    if (f.bursts > 0) {
        if (s[WICKBADGER_RECORD_STATE] != WICKBADGER_WAITING || !f.pending)
            become(s, WICKBADGER_IDLE, 0, 0, 0, 0, 0);
        else
            s[WICKBADGER_RECORD_LEFT] = 0;
        return 0;
    }
    if (settle(s, fields, f.pending, draw)) {
        uint32_t left = s[WICKBADGER_RECORD_LEFT];
        int sends = f.own || pass(bytes, fields, s[WICKBADGER_RECORD_R], &left);
        if (f.own)
            left = f.first;
        if (sends) {
            s[WICKBADGER_RECORD_STATE] = WICKBADGER_WAITING;
            s[WICKBADGER_RECORD_TIME] = heard[2] = left;
            s[WICKBADGER_RECORD_LEFT] = 0;
            heard[1] = 1;
        } else {
            s[WICKBADGER_RECORD_LEFT] = left;
        }
    }
    return 0;
}
