/* The rival's tag, over the CRC-16 steps and the CRC-5 of the file that includes it. */
#include <string.h>

#define INLINED static inline __attribute__((always_inline))

typedef const uint8_t *bytes;

static inline unsigned word(bytes m, size_t i) { return (unsigned)m[2 * i] << 8 | m[2 * i + 1]; }
static inline void put(uint8_t *m, size_t i, unsigned v) {
    m[2 * i] = (uint8_t)(v >> 8);
    m[2 * i + 1] = (uint8_t)v;
}
static inline uint64_t eight(bytes p) {
    uint64_t v;
    memcpy(&v, p, 8);
    return __builtin_bswap64(v);
}

static inline uint32_t four(bytes p) {
    uint32_t v;
    memcpy(&v, p, 4);
    return __builtin_bswap32(v);
}

/* of n bits; two bytes more can be read behind them */
static uint16_t crc_bits(bytes p, size_t n) {
    uint16_t r = 0xFFFF;
#if WORDS_AT_ONCE == 4
    for (; n >= 64; n -= 64, p += 8) r = step64(r, eight(p));
    if (n >= 16) {
        uint64_t v = n > 40 ? eight(p) >> (64 - n) : n > 32 ? ((uint64_t)four(p) << 8 | p[4]) >> (40 - n) : four(p) >> (32 - n);
        return (uint16_t)~step64(0, (uint64_t)r << (n - 16) ^ v);
    }
#endif
    for (size_t k = n / 8; k; k--) r = step8(r, *p++);
    unsigned k = n % 8;
    if (k) r = step_few(r, *p >> (8 - k), k);
    return (uint16_t)~r;
}

static inline unsigned field16(bytes f, size_t at) {
    unsigned k = at % 8;
    f += at / 8;
    unsigned v = (unsigned)f[0] << 16 | (unsigned)f[1] << 8 | (k ? f[2] : 0);
    return v >> (8 - k) & 0xFFFF;
}

static inline unsigned field(bytes f, size_t at, unsigned n) {
    unsigned k = at % 8;
    f += at / 8;
    unsigned v = (unsigned)f[0] << 16 | (k + n > 8 ? (unsigned)f[1] << 8 : 0) | (k + n > 16 ? f[2] : 0);
    return v >> (24 - k - n) & ((1u << n) - 1);
}

/* an EBV-8 pointer at bit `at`; its bytes, or 0 */
static inline unsigned pointer(bytes f, size_t at, unsigned *value) {
    unsigned v = 0;
    for (unsigned e = 1; e <= 3; e++, at += 8) {
        unsigned b = field(f, at, 8);
        v = v << 7 | (b & 127);
        if (b < 128) {
            *value = v;
            return e;
        }
    }
    return 0;
}

/* 32 or 64 bits from bit `at` on; five bytes, or nine, can be read there */
static inline uint32_t bits32(bytes p, size_t at) {
    p += at / 8;
    return (uint32_t)(((uint64_t)four(p) << 8 | p[4]) >> (8 - at % 8));
}
static inline uint64_t bits64(bytes p, size_t at) {
    p += at / 8;
    return eight(p) << at % 8 | p[8] >> (8 - at % 8);
}

/* n bits of a from bit i on are those of b from bit j on; two bytes more can be read behind both */
INLINED int same_bits(bytes a, size_t i, bytes b, size_t j, size_t n) {
    if (n >= 64) {
        for (; n > 64; n -= 64, i += 64, j += 64)
            if (bits64(a, i) != bits64(b, j)) return 0;
        return bits64(a, i + n - 64) == bits64(b, j + n - 64); /* the last 64, some of them again */
    }
    if (n >= 32) return bits32(a, i) == bits32(b, j) && bits32(a, i + n - 32) == bits32(b, j + n - 32);
    if (n >= 16) return field16(a, i) == field16(b, j) && field16(a, i + n - 16) == field16(b, j + n - 16);
    return !n || field(a, i, (unsigned)n) == field(b, j, (unsigned)n);
}

/* ---- image ---- */

static inline int value_good(const struct rival_layout *y, unsigned spare, unsigned o, unsigned v) {
    if (o == 16) return v < 1024;
    if (o == 17) return v < 2;
    if (o == y->epc + 1) return (v >> 11) + 2 <= y->epc_words;
    if (o + 1 == y->work) return (v & spare) == 0;
    return 1;
}

int NAME(check)(bytes m, size_t n, struct rival_layout *y) {
    if (n < 32) return 1;
    y->block = word(m, 1);
    y->status = word(m, 2);
    y->reserved = word(m, 4);
    y->reserved_words = word(m, 5);
    y->epc = word(m, 6);
    y->epc_words = word(m, 7);
    y->tid = word(m, 8);
    y->tid_words = word(m, 9);
    y->user = word(m, 10);
    y->user_words = word(m, 11);
    y->perma = word(m, 12);
    y->perma_words = word(m, 13);
    y->work = word(m, 14);
    unsigned words = word(m, 15);
    if (word(m, 0) != 7 || y->block - 1 > 4095 || y->status != 16 || word(m, 3) != 2 || y->reserved != 18) return 2;
    if (y->reserved_words < 4 || y->reserved_words > 64 || y->epc != 18 + y->reserved_words) return 2;
    if (y->epc_words < 2 || y->epc_words > 33 || y->tid != y->epc + y->epc_words) return 2;
    if (y->tid_words > 64 || y->user != y->tid + y->tid_words || y->user_words > 4096) return 2;
    y->blocks = (y->user_words + y->block - 1) / y->block;
    if (y->blocks > 256 || y->perma != y->user + y->user_words || y->perma_words != (y->blocks + 15) / 16) return 2;
    if (y->work != y->perma + y->perma_words || words % 2 == 0) return 2;
    y->pairs = words / 2;
    if (y->pairs < 16 || y->pairs > 255 || n != 2 * (size_t)(y->work + words)) return 2;
    unsigned spare = y->blocks % 16 ? (1u << (16 - y->blocks % 16)) - 1 : 0, c = word(m, y->work);
    if (word(m, 16) > 1023 || word(m, 17) > 1 || (word(m, y->epc + 1) >> 11) + 2 > y->epc_words) return 3;
    if (y->perma_words && (word(m, y->work - 1) & spare)) return 3;
    if (c > y->pairs) return 3;
    for (unsigned j = 0; j < c; j++) {
        unsigned o = word(m, y->work + 1 + 2 * j), v = word(m, y->work + 2 + 2 * j);
        if (o >= y->user && o < y->work - 1) continue; /* USER or PERMA, but its last word: any value */
        if (o < 16 || o >= y->work || (o >= y->tid && o < y->user) || !value_good(y, y->perma_words ? spare : 0, o, v)) return 3;
    }
    return 0;
}

/* ---- stores ---- */

/* a change of c words: the first `power` of its 3c + 2 stores. The words come from `next`, in rising order. */
struct change {
    unsigned c, at;
    unsigned kind; /* 0 one word v, 1 bits of the frame, 2 zeros, 3 frame bits added, 4 bytes but where the mask is set */
    unsigned v;
    bytes from;
    size_t bit;
    const uint8_t *mask;
};

static inline unsigned value_of(const uint8_t *m, const struct change *d, unsigned j) {
    switch (d->kind) {
    case 0: return d->v;
    case 1: return field16(d->from, d->bit + 16 * (size_t)j);
    case 2: return 0;
    case 3: return word(m, d->at + j) | field16(d->from, d->bit + 16 * (size_t)j);
    default: return word(d->from, j);
    }
}

static void run(uint8_t *m, unsigned work, const struct change *d, unsigned n, size_t power) {
    unsigned k = 0;
    size_t left = power;
    for (unsigned j = 0; j < n; j++) {
        if (d->mask && d->mask[j]) continue;
        unsigned v = value_of(m, d, j);
        if (left < 2) {
            if (left) put(m, work + 1 + 2 * k, d->at + j);
            return;
        }
        put(m, work + 1 + 2 * k, d->at + j);
        put(m, work + 2 + 2 * k, v);
        left -= 2;
        k++;
    }
    if (!left) return;
    put(m, work, k);
    left--;
    for (unsigned j = 0; j < k; j++) {
        if (!left) return;
        put(m, word(m, work + 1 + 2 * j), word(m, work + 2 + 2 * j));
        left--;
    }
    if (left) put(m, work, 0);
}

static const struct tag_session off;

int NAME(power_up)(struct tag_session *s, uint8_t *m, size_t n, size_t power, struct rival_out *out) {
    struct rival_layout y;
    out->reply = out->stores = out->value = 0;
    *s = off;
    int a = NAME(check)(m, n, &y);
    if (a) return a;
    unsigned c = word(m, y.work);
    size_t left = power;
    for (unsigned j = 0; j < c; j++, left--) {
        if (!left) goto lost;
        put(m, word(m, y.work + 1 + 2 * j), word(m, y.work + 2 + 2 * j));
    }
    if (c) {
        if (!left) goto lost;
        put(m, y.work, 0);
        left--;
    }
    if (!left) goto lost;
    put(m, y.epc, crc_bits(m + 2 * (y.epc + 1), 16 * (1 + (word(m, y.epc + 1) >> 11))));
    out->stores = power - left + 1;
    s->state = word(m, 17) ? TAG_KILLED : TAG_READY;
    return 0;
lost:
    out->stores = power;
    return 11;
}

/* ---- replies ---- */

/* the handle and the CRC-16, one bit late */
static inline void reply_end(uint8_t *o, unsigned before, uint16_t r, unsigned handle) {
    r = (uint16_t)~step16(r, handle);
    uint32_t v = before << 31 | handle << 15 | r >> 1;
    v = __builtin_bswap32(v);
    memcpy(o, &v, 4);
    o[4] = (uint8_t)(r << 7);
}

#define AFTER_ZERO 0xEFDF /* the register after one bit 0 */

static void reply_words(uint8_t *o, bytes p, size_t n, unsigned handle) {
    uint16_t r = AFTER_ZERO;
#if WORDS_AT_ONCE == 4
    uint64_t before = 0;
    for (; n >= 4; n -= 4, p += 8, o += 8) {
        uint64_t w = eight(p), v = __builtin_bswap64(before << 63 | w >> 1);
        memcpy(o, &v, 8);
        r = step64(r, w);
        before = w;
    }
#else
    unsigned before = 0;
#endif
    for (; n; n--, p += 2, o += 2) {
        unsigned w = word(p, 0), v = ((unsigned)before & 1) << 15 | w >> 1;
        put(o, 0, v);
        r = step16(r, w);
        before = w;
    }
    reply_end(o, (unsigned)before & 1, r, handle);
}

static void reply_number(uint8_t *o, unsigned number) {
    put(o, 0, number);
    put(o, 1, (uint16_t)~step16(0xFFFF, number));
}

static void reply_error(uint8_t *o, unsigned code, unsigned handle) {
    uint16_t r = step8((uint16_t)(0xFFFF << 1), code); /* after one bit 1 */
    o[0] = (uint8_t)(0x80 | code >> 1);
    reply_end(o + 1, code & 1, r, handle);
}

/* words as they are, with their CRC-16 */
static void reply_bare(uint8_t *o, bytes p, size_t n) {
    uint16_t r = 0xFFFF;
#if WORDS_AT_ONCE == 4
    for (; n >= 4; n -= 4, p += 8, o += 8) {
        r = step64(r, eight(p));
        memcpy(o, p, 8);
    }
    if (n == 3) { /* the last three words and the CRC-16 at once; more of the image stands behind them */
        uint64_t v = eight(p) >> 16;
        r = step64(0, (uint64_t)r << 32 ^ v);
        v = __builtin_bswap64(v << 16 | (uint16_t)~r);
        memcpy(o, &v, 8);
        return;
    }
#endif
    for (; n; n--, p += 2, o += 2) {
        r = step16(r, word(p, 0));
        memcpy(o, p, 2);
    }
    put(o, 0, (uint16_t)~r);
}

/* ---- inventory ---- */

/* no number, cover or half */
static inline void unlink_session(struct tag_session *s) {
    s->covered = s->half = 0;
    s->number = s->cover = s->upper = 0;
}

static inline void to_ready(struct tag_session *s) {
    s->state = TAG_READY;
    s->round = s->q = 0;
    s->slot = 0;
    unlink_session(s);
}

/* waits in the round for its slot */
static inline void to_arbitrate(struct tag_session *s, unsigned slot) {
    s->state = TAG_ARBITRATE;
    s->slot = (uint16_t)slot;
    unlink_session(s);
}

/* Reply with the fresh word, which is the reply too */
static inline int to_reply(struct tag_session *s, unsigned fresh, uint8_t *room, struct rival_out *out) {
    put(room, 0, fresh);
    out->reply = 16;
    s->state = TAG_REPLY;
    s->slot = 0;
    unlink_session(s);
    s->number = (uint16_t)fresh;
    return 0;
}

/* the tag is counted: the flag of the round's session turns */
static inline int end_round(struct tag_session *s) {
    s->flags ^= (uint8_t)(1u << s->round);
    to_ready(s);
    return 0;
}

static inline int in_round(const struct tag_session *s) { return s->state >= TAG_ARBITRATE && s->state <= TAG_SECURED; }

INLINED int query_rep(struct tag_session *s, bytes f, unsigned fresh, uint8_t *room, size_t rn, struct rival_out *out) {
    if (!in_round(s) || f[0] >> 4 != s->round) return 9;
    if (s->state > TAG_REPLY) return end_round(s);
    unsigned slot = (s->slot - 1u) & 0x7FFF; /* Reply has slot 0 */
    if (!slot) return rn < 2 ? 4 : to_reply(s, fresh, room, out);
    s->state = TAG_ARBITRATE;
    s->number = 0;
    s->slot = (uint16_t)slot;
    return 0;
}

INLINED int query_adjust(struct tag_session *s, bytes f, unsigned fresh, uint8_t *room, size_t rn, struct rival_out *out) {
    unsigned turn = (f[0] & 3u) << 1 | f[1] >> 7, q = s->q;
    if (!in_round(s) || (f[0] >> 2 & 3) != s->round || !(0x49 >> turn & 1)) return 9; /* 000, 011, 110 */
    if (s->state > TAG_REPLY) return end_round(s);
    if (turn == 6) q += q < 15;
    if (turn == 3) q -= q > 0;
    unsigned slot = fresh & ((1u << q) - 1);
    if (!slot && rn < 2) return 4;
    s->q = (uint8_t)q;
    if (!slot) return to_reply(s, fresh, room, out);
    to_arbitrate(s, slot);
    return 0;
}

INLINED int query(struct tag_session *s, bytes f, unsigned fresh, uint8_t *room, size_t rn, struct rival_out *out) {
    if (crc5_wrong(f)) return 8;
    if (s->state == TAG_KILLED) return 9;
    unsigned session = f[1] >> 4 & 3, sel = f[1] >> 6, target = f[1] >> 3 & 1, q = (f[1] & 7u) << 1 | f[2] >> 7;
    unsigned turned = s->state >= TAG_ACKNOWLEDGED && s->round == session, flags = s->flags ^ turned << session;
    if ((flags >> session & 1) != target || (sel >= 2 && (sel & 1) != flags >> 4)) {
        s->flags = (uint8_t)flags;
        to_ready(s);
        return 0;
    }
    unsigned slot = fresh & ((1u << q) - 1);
    if (!slot && rn < 2) return 4;
    s->flags = (uint8_t)flags;
    s->round = (uint8_t)session;
    s->q = (uint8_t)q;
    if (!slot) return to_reply(s, fresh, room, out);
    to_arbitrate(s, slot);
    return 0;
}

static inline int nak(struct tag_session *s) {
    if (!in_round(s)) return 9;
    if (s->state != TAG_ARBITRATE) to_arbitrate(s, 0);
    return 0;
}

INLINED int ack(struct tag_session *s, bytes m, const struct rival_layout *y, bytes f, uint8_t *room, size_t rn, struct rival_out *out) {
    if (s->state < TAG_REPLY || s->state == TAG_KILLED) return 9;
    if (field16(f, 2) != s->number || s->half) {
        int halves = field16(f, 2) == s->number;
        to_arbitrate(s, 0);
        return halves ? 14 : 0;
    }
    unsigned words = 1 + (word(m, y->epc + 1) >> 11);
    if (rn < 2 * (size_t)words + 2) return 4;
    reply_bare(room, m + 2 * (y->epc + 1), words);
    out->reply = 16 * (size_t)words + 16;
    if (s->state == TAG_REPLY) s->state = TAG_ACKNOWLEDGED;
    s->covered = 0;
    s->cover = 0;
    return 0;
}

/* what Select's action does to the flag: 0 assert SL or A, 1 deassert SL or B, 2 nothing, 3 negate; from the right, actions 000 to 111 without
   a match, then with one */
#define EFFECTS 0xA5E0C899u

static inline int selection(struct tag_session *s, bytes m, bytes f, size_t n) {
    unsigned from, e;
    if (n < 45 || !(e = pointer(f, 12, &from))) return 7;
    size_t length = field(f, 12 + 8 * e, 8), mask = 20 + 8 * e;
    if (n != 37 + 8 * e + length) return 7;
    if (field16(f, n - 16) != crc_bits(f, n - 16)) return 8;
    unsigned target = f[0] >> 1 & 7, action = (f[0] & 1u) << 2 | f[1] >> 6, bank = f[1] >> 4 & 3;
    if (s->state == TAG_KILLED || target > 4 || !bank || field(f, n - 17, 1)) return 9;
    unsigned at = word(m, 4 + 2 * bank), words = word(m, 5 + 2 * bank);
    int match = from + length + !length <= 16 * (size_t)words && same_bits(f, mask, m + 2 * at, from, length);
    unsigned effect = EFFECTS >> (16 * match + 2 * action) & 3, it = 1u << target;
    s->flags = (uint8_t)((effect & 2 ? s->flags : (s->flags & ~it) | (it & TAG_FLAG_SL)) ^ (effect & 1) << target);
    to_ready(s);
    return 0;
}

/* ---- frames ---- */

struct command {
    unsigned number, bank, pointer, count, value, mask, action, rfu, locks;
    size_t data;
};

/* 0, or malformed */
static int parse(bytes f, size_t n, struct command *c) {
    unsigned e;
    switch (f[0]) {
    case 0xC1:
        if (n != 40) return 7;
        break;
    case 0xC2:
    case 0xC8:
        if (n < 58 || !(e = pointer(f, 10, &c->pointer)) || n != 50 + 8 * e) return 7;
        c->bank = f[1] >> 6;
        c->count = field(f, 10 + 8 * e, 8);
        break;
    case 0xC3:
        if (n < 66 || !(e = pointer(f, 10, &c->pointer)) || n != 58 + 8 * e) return 7;
        c->bank = f[1] >> 6;
        c->value = field16(f, 10 + 8 * e);
        c->count = 1;
        break;
    case 0xC4:
        if (n != 59) return 7;
        c->value = word(f + 1, 0);
        break;
    case 0xC5:
        if (n != 60) return 7;
        c->mask = field(f, 8, 10);
        c->action = field(f, 18, 10);
        break;
    case 0xC6:
        if (n != 56) return 7;
        c->value = word(f + 1, 0);
        break;
    case 0xC7:
        if (n < 58 || !(e = pointer(f, 10, &c->pointer))) return 7;
        c->bank = f[1] >> 6;
        c->count = field(f, 10 + 8 * e, 8);
        c->data = 18 + 8 * e;
        if (n != 50 + 8 * e + 16 * (size_t)c->count) return 7;
        break;
    case 0xC9:
        if (n < 67 || !(e = pointer(f, 19, &c->pointer))) return 7;
        c->rfu = f[1];
        c->locks = f[2] >> 7;
        c->bank = f[2] >> 5 & 3;
        c->count = field(f, 19 + 8 * e, 8);
        c->data = 27 + 8 * e;
        if (n != 59 + 8 * e + (c->locks ? 16 * (size_t)c->count : 0)) return 7;
        break;
    default: return 7;
    }
    c->number = field16(f, n - 32);
    return 0;
}

/* ---- rights ---- */

#define NO_ERROR (-1)

static inline int open_pair(unsigned lock, unsigned pair, int secured) {
    unsigned p = lock >> (8 - 2 * pair) & 3;
    return p < 2 || (p == 2 && secured);
}

static inline int block_locked(bytes m, const struct rival_layout *y, unsigned b) {
    return word(m, y->perma + b / 16) >> (15 - b % 16) & 1;
}

static inline void bank_of(const struct rival_layout *y, unsigned bank, unsigned *at, unsigned *words) {
    switch (bank) {
    case 0: *at = y->reserved, *words = y->reserved_words; break;
    case 1: *at = y->epc, *words = y->epc_words; break;
    case 2: *at = y->tid, *words = y->tid_words; break;
    default: *at = y->user, *words = y->user_words;
    }
}

static int reserved_open(unsigned lock, unsigned from, unsigned n, int secured) {
    if (from < 2 && !open_pair(lock, 0, secured)) return 0;
    return from + n <= 2 || open_pair(lock, 1, secured);
}

/* the word before which a Read with WordCount 0 ends: in EPC L + 2, if its pointer lies below it; else the bank's end */
static unsigned read_end(bytes m, const struct rival_layout *y, const struct command *c, unsigned words) {
    unsigned end = (word(m, y->epc + 1) >> 11) + 2;
    return c->bank == 1 && c->pointer < end ? end : words;
}

static int read_error(bytes m, const struct rival_layout *y, int secured, struct command *c) {
    unsigned at, words;
    bank_of(y, c->bank, &at, &words);
    if (c->pointer >= words) return 3;
    if (!c->count) c->count = read_end(m, y, c, words) - c->pointer;
    if (c->pointer + c->count > words) return 3;
    if (c->bank == 0 && !reserved_open(word(m, 16), c->pointer, c->count, secured)) return 4;
    return NO_ERROR;
}

/* pc: the value that would go to EPC word 1, if the span has it */
static int write_error(bytes m, const struct rival_layout *y, int secured, const struct command *c, unsigned pc) {
    unsigned at, words, lock = word(m, 16), last = c->pointer + c->count - 1;
    bank_of(y, c->bank, &at, &words);
    if (c->pointer >= words || last >= words) return 3;
    switch (c->bank) {
    case 0:
        if (!reserved_open(lock, c->pointer, c->count, secured)) return 4;
        break;
    case 1:
        if (c->pointer == 0 || !open_pair(lock, 2, secured)) return 4;
        if (c->pointer == 1 && (pc >> 11) + 2 > y->epc_words) return 3;
        break;
    case 2: return 4;
    default:
        if (!open_pair(lock, 4, secured)) return 4;
        for (unsigned b = c->pointer / y->block; b <= last / y->block; b++)
            if (block_locked(m, y, b)) return 4;
    }
    return c->count > y->pairs ? 0 : NO_ERROR;
}

static int lock_error(bytes m, const struct rival_layout *y, const struct command *c, unsigned *to) {
    unsigned lock = word(m, 16), next = (lock & ~c->mask) | (c->action & c->mask), fixed = lock & 0x155;
    *to = next & 0x3FF;
    if (fixed & ~next) return 4;
    if ((lock ^ next) & fixed << 1) return 4;
    if ((c->mask & 3) && (next & 3) == 1)
        for (unsigned i = 0; i < y->perma_words; i++)
            if (word(m, y->perma + i)) return 4;
    return NO_ERROR;
}

static int perma_error(bytes m, const struct rival_layout *y, const struct command *c, bytes f) {
    if (c->bank != 3 || c->pointer + c->count > y->perma_words) return 3;
    if (!c->locks) return NO_ERROR;
    if (c->pointer + c->count == y->perma_words && y->blocks % 16) {
        unsigned spare = (1u << (16 - y->blocks % 16)) - 1;
        if (field16(f, c->data + 16 * (size_t)(c->count - 1)) & spare) return 3;
    }
    return (word(m, 16) & 3) == 1 ? 4 : NO_ERROR;
}

/* the answers of every call with an image: 1, 2, 3, 5 */
INLINED int front(const struct tag_session *s, bytes m, size_t mn, struct rival_layout *y, struct rival_out *out) {
    out->reply = out->stores = out->value = 0;
    int a = NAME(check)(m, mn, y);
    if (a) return a;
    return s->state == TAG_OFF || word(m, y->work) ? 5 : 0;
}

/* frames of 40 bits or more: Select, and the codes of a byte but NAK */
static __attribute__((noinline)) int long_frame(struct tag_session *s, uint8_t *m, size_t mn, bytes f, size_t fn, size_t n, unsigned fresh,
                                                uint8_t *room, size_t rn, size_t power, struct rival_out *out) {
    struct rival_layout y;
    struct command c;
    struct change d = {0};
    int a = front(s, m, mn, &y, out);
    if (a) return a;
    if (s->held) return 6;
    if ((n - 1) / 8 >= fn) return 7;
    if (f[0] >> 4 == 10) return selection(s, m, f, n);
    if (parse(f, n, &c)) return 7;
    if (field16(f, n - 16) != crc_bits(f, n - 16)) return 8;
    unsigned code = f[0];
    int linked = s->state == TAG_OPEN || s->state == TAG_SECURED, secured = s->state == TAG_SECURED;
    if (c.number != s->number || !(linked || (s->state == TAG_ACKNOWLEDGED && code == 0xC1))) return 9;
    if (code == 0xC1) {
        if (rn < 4) return 4;
        reply_number(room, fresh);
        out->reply = 32;
        if (linked) {
            s->covered = 1;
            s->cover = (uint16_t)fresh;
        } else {
            s->state = word(m, y.reserved + 2) | word(m, y.reserved + 3) ? TAG_OPEN : TAG_SECURED;
            s->number = (uint16_t)fresh;
        }
        return 0;
    }
    if ((code == 0xC5 || code == 0xC9) && !secured) return 9;
    if ((code == 0xC3 || code == 0xC4 || code == 0xC6) && !s->covered) return 9;
    if ((code == 0xC7 || code == 0xC8 || code == 0xC9) && !c.count) return 9;
    if (code == 0xC9 && c.rfu) return 9;
    unsigned v = c.value ^ s->cover, halves = s->half, handle = s->number;
    if (halves) {
        unsigned at = y.reserved + (halves == TAG_ACCESS_HALF ? 2 : 0);
        int broken = code != (halves == TAG_ACCESS_HALF ? 0xC6u : 0xC4u);
        if (broken || s->upper != word(m, at) || v != word(m, at + 1)) {
            to_arbitrate(s, 0);
            return broken ? 14 : 12;
        }
    }
    /* the error code, and what is stored */
    int e = NO_ERROR;
    unsigned words = 0, at, size, to = 0;
    size_t bits = 33;
    switch (code) {
    case 0xC2:
        e = read_error(m, &y, secured, &c);
        bits = 33 + 16 * (size_t)c.count;
        break;
    case 0xC3:
        e = write_error(m, &y, secured, &c, v);
        words = 1;
        d.v = v;
        break;
    case 0xC4:
        if (halves) {
            words = 1;
            d.v = 1;
        } else {
            bits = 32;
            if (!(word(m, y.reserved) | word(m, y.reserved + 1))) e = 0;
        }
        break;
    case 0xC5:
        e = lock_error(m, &y, &c, &to);
        words = 1;
        d.v = to;
        break;
    case 0xC6: bits = 32; break;
    case 0xC7:
        e = write_error(m, &y, secured, &c, c.pointer < 2 && c.count > 1 - c.pointer ? field16(f, c.data + 16 * (1 - c.pointer)) : 0);
        words = c.count;
        d.kind = 1;
        break;
    case 0xC8:
        e = write_error(m, &y, secured, &c, 0);
        words = c.count;
        d.kind = 2;
        break;
    default:
        e = perma_error(m, &y, &c, f);
        if (c.locks)
            words = c.count, d.kind = 3;
        else
            bits = 33 + 16 * (size_t)c.count;
    }
    if (e != NO_ERROR) {
        if (rn < 6) return 4;
        reply_error(room, (unsigned)e, handle);
        out->reply = 41;
        s->covered = 0;
        s->cover = 0;
        return 10;
    }
    if (rn < (bits + 7) / 8) return 4;
    if (words) {
        bank_of(&y, c.bank, &at, &size);
        d.at = code == 0xC5 ? 16 : code == 0xC4 ? 17 : code == 0xC9 ? y.perma + c.pointer : at + c.pointer;
        d.from = f;
        d.bit = c.data;
        run(m, y.work, &d, words, power);
        if (power < 3 * (size_t)words + 2) {
            out->stores = power;
            *s = off;
            return 11;
        }
        out->stores = 3 * (size_t)words + 2;
    }
    if (bits == 32) {
        reply_number(room, handle);
    } else if (code == 0xC2) {
        bank_of(&y, c.bank, &at, &size);
        reply_words(room, m + 2 * (at + c.pointer), c.count, handle);
    } else if (code == 0xC9 && !c.locks) {
        reply_words(room, m + 2 * (y.perma + c.pointer), c.count, handle);
    } else {
        reply_end(room, 0, AFTER_ZERO, handle);
    }
    out->reply = bits;
    s->covered = s->half = 0;
    s->cover = s->upper = 0;
    if (code == 0xC6) {
        if (halves)
            s->state = TAG_SECURED;
        else
            s->half = TAG_ACCESS_HALF, s->upper = (uint16_t)v;
    } else if (code == 0xC4) {
        if (halves)
            s->state = TAG_KILLED, s->round = s->q = 0, s->number = 0;
        else
            s->half = TAG_KILL_HALF, s->upper = (uint16_t)v;
    }
    return 0;
}

int NAME(frame)(struct tag_session *s, uint8_t *m, size_t mn, bytes f, size_t fn, size_t n, unsigned fresh, uint8_t *room, size_t rn,
                size_t power, struct rival_out *out) {
    if (n >= 40) return long_frame(s, m, mn, f, fn, n, fresh, room, rn, power, out); /* it is told the same: a jump */
    struct rival_layout y;
    int a = front(s, m, mn, &y, out);
    if (a) return a;
    if (s->held) return 6;
    if (n == 4) return fn && f[0] < 0x40 ? query_rep(s, f, fresh, room, rn, out) : 7;
    if (!n || (n - 1) / 8 >= fn) return 7;
    if (n == 18) return f[0] >> 6 == 1 ? ack(s, m, &y, f, room, rn, out) : 7;
    if (n == 22) return f[0] >> 4 == 8 ? query(s, f, fresh, room, rn, out) : 7;
    if (n == 9) return f[0] >> 4 == 9 ? query_adjust(s, f, fresh, room, rn, out) : 7;
    return n == 8 && f[0] == 0xC0 ? nak(s) : 7;
}

/* ---- port ---- */

int NAME(ask)(struct tag_session *s) {
    if (s->state == TAG_OFF) return 5;
    if (s->held || s->state == TAG_OPEN || s->state == TAG_SECURED) return 6;
    s->held = 1;
    return 0;
}

int NAME(release)(struct tag_session *s) {
    if (s->state == TAG_OFF) return 5;
    if (!s->held) return 6;
    s->held = 0;
    return 0;
}

int NAME(register)(struct tag_session *s, struct rival_out *out) {
    out->reply = out->stores = out->value = 0;
    if (s->state == TAG_OFF) return 5;
    if (!s->held) return 6;
    out->value = s->reg;
    s->reg = 0;
    return 0;
}

int NAME(read)(struct tag_session *s, bytes m, size_t mn, size_t at, size_t count, uint8_t *room, size_t rn, struct rival_out *out) {
    struct rival_layout y;
    int a = front(s, m, mn, &y, out);
    if (a) return a;
    if (!s->held) return 6;
    if (count - 1 > 254 || at > y.user_words || at + count > y.user_words) return 13;
    if (rn < 2 * count) return 4;
    if (s->state == TAG_KILLED) {
        memset(room, 0, 2 * count);
        s->reg |= 1;
    } else {
        memcpy(room, m + 2 * (y.user + at), 2 * count);
    }
    out->reply = 16 * count;
    return 0;
}

int NAME(write)(struct tag_session *s, uint8_t *m, size_t mn, size_t at, bytes words, size_t wn, size_t power, struct rival_out *out) {
    struct rival_layout y;
    int a = front(s, m, mn, &y, out);
    if (a) return a;
    if (!s->held) return 6;
    size_t count = wn / 2;
    if (wn % 2 || count - 1 > 254 || at > y.user_words || at + count > y.user_words || count > y.pairs) return 13;
    if (s->state == TAG_KILLED) {
        s->reg |= 1;
        return 0;
    }
    if (word(m, y.reserved + 2) | word(m, y.reserved + 3) | (word(m, 16) & 2)) {
        s->reg |= 2;
        return 0;
    }
    uint8_t mask[255] = {0};
    unsigned n = (unsigned)count, writable = n, b = (unsigned)at / y.block;
    for (unsigned j = 0, stop; j < n; j = stop, b++) {
        stop = (b + 1) * y.block - (unsigned)at;
        if (stop > n) stop = n;
        if (!block_locked(m, &y, b)) continue;
        memset(mask + j, 1, stop - j);
        writable -= stop - j;
    }
    if (writable) {
        struct change d = {.c = writable, .at = y.user + (unsigned)at, .kind = 4, .from = words, .mask = writable < n ? mask : 0};
        run(m, y.work, &d, n, power);
        if (power < 3 * (size_t)writable + 2) {
            out->stores = power;
            *s = off;
            return 11;
        }
        out->stores = 3 * (size_t)writable + 2;
    }
    if (writable != count) s->reg |= 2;
    return 0;
}
