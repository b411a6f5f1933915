/* The library and both rivals on the same random inputs: every answer, session, reply, store count, image and room must be the same. */
#include <stdio.h>
#include <string.h>
#include "agree.h"

static uint32_t seed = 2026;

static unsigned below(unsigned n) {
    seed = seed * 1664525u + 1013904223u;
    return (unsigned)((uint64_t)(seed >> 8) * n >> 24);
}
static unsigned any16(void) { return below(256) << 8 | below(256); }
static int one_in(unsigned n) { return below(n) == 0; }

/* ---- frames: bits, and a CRC-16 or CRC-5 bit by bit ---- */

void frame_start(struct frame *f) { memset(f, 0, sizeof *f); }

void frame_bits(struct frame *f, unsigned v, unsigned n) {
    while (n--) {
        if (v >> n & 1) f->bytes[f->n / 8] |= (uint8_t)(0x80 >> f->n % 8);
        f->n++;
    }
}

void frame_end(struct frame *f) {
    unsigned r = 0xFFFF;
    for (size_t i = 0; i < f->n; i++) {
        unsigned b = f->bytes[i / 8] >> (7 - i % 8) & 1;
        r = ((r << 1) ^ ((r >> 15 ^ b) ? 0x1021 : 0)) & 0xFFFF;
    }
    frame_bits(f, r ^ 0xFFFF, 16);
}

void frame_end5(struct frame *f) {
    unsigned r = 0x09;
    for (size_t i = 0; i < f->n; i++) {
        unsigned b = f->bytes[i / 8] >> (7 - i % 8) & 1;
        r = ((r << 1) ^ ((r >> 4 ^ b) ? 0x09 : 0)) & 31;
    }
    frame_bits(f, r, 5);
}

void frame_pointer(struct frame *f, unsigned v, unsigned least) {
    if (v > 16383 || least > 2) frame_bits(f, 128 | (v >> 14 & 127), 8);
    if (v > 127 || least > 1) frame_bits(f, 128 | (v >> 7 & 127), 8);
    frame_bits(f, v & 127, 8);
}

/* ---- images ---- */

static void put(uint8_t *m, size_t i, unsigned v) {
    m[2 * i] = (uint8_t)(v >> 8);
    m[2 * i + 1] = (uint8_t)v;
}
static unsigned word(const uint8_t *m, size_t i) { return m[2 * i] * 256u + m[2 * i + 1]; }

/* an image of these counts; its size in bytes */
size_t image_make(uint8_t *m, unsigned block, unsigned reserved, unsigned epc, unsigned tid, unsigned user, unsigned pairs) {
    unsigned perma = ((user + block - 1) / block + 15) / 16, counts[7] = {2, reserved, epc, tid, user, perma, 1 + 2 * pairs}, at = 16;
    memset(m, 0, 9604);
    put(m, 0, 7);
    put(m, 1, block);
    for (unsigned i = 0; i < 7; i++) {
        put(m, 2 + 2 * i, at);
        put(m, 3 + 2 * i, counts[i]);
        at += counts[i];
    }
    return 2 * at;
}

static size_t image_random(uint8_t *m) {
    unsigned user = one_in(3) ? below(4097) : below(70), block = one_in(2) ? 1 + below(8) : 1 + below(4096);
    while ((user + block - 1) / block > 256) block = 1 + below(4096);
    unsigned reserved = 4 + below(61), epc = 2 + below(32), tid = below(65), pairs = one_in(2) ? 16 : 16 + below(240);
    size_t n = image_make(m, block, reserved, epc, tid, user, pairs);
    unsigned e = 18 + reserved, u = e + epc + tid, p = u + user, blocks = (user + block - 1) / block, w = word(m, 14);
    for (unsigned i = 18; i < w; i++) put(m, i, any16());
    put(m, 16, one_in(2) ? 0 : below(1024));
    put(m, 17, one_in(8));
    put(m, e + 1, below(epc - 1) << 11 | below(2048));
    for (unsigned i = 18; i < 22; i++) put(m, i, below(3));
    if (one_in(2)) put(m, 20, 0), put(m, 21, 0);
    for (unsigned i = p; i < w; i++) put(m, i, one_in(2) ? 0 : any16() & any16());
    if (blocks % 16) put(m, w - 1, word(m, w - 1) >> (16 - blocks % 16) << (16 - blocks % 16));
    if (one_in(4)) {
        unsigned c = below(pairs + 2);
        put(m, w, c);
        for (unsigned j = 0; j < c && j < pairs; j++) {
            put(m, w + 1 + 2 * j, one_in(2) && user ? u + below(user) : one_in(9) ? below(w + 1) : 18 + below(reserved + epc));
            put(m, w + 2 + 2 * j, one_in(3) ? any16() : below(3));
        }
    }
    if (one_in(12)) m[one_in(2) ? below(40) : below((unsigned)n)] ^= (uint8_t)(1u << below(8));
    if (one_in(30)) n = one_in(2) ? below(40) : n - 1 + 2 * below(2);
    return n > 9604 ? 9604 : n;
}

/* ---- sessions ---- */

static int has_round(const struct tag_session *s) { return s->state >= TAG_ARBITRATE && s->state <= TAG_SECURED; }
static int has_link(const struct tag_session *s) { return s->state == TAG_OPEN || s->state == TAG_SECURED; }

static struct tag_session session_random(const uint8_t *m) {
    static const uint8_t states[] = {0, 1, 1, 1, 2, 2, 2, 3, 3, 3, 4, 4, 4, 5, 5, 5, 5, 5, 6, 6, 6, 6, 6, 6, 6, 6, 6, 7, 7};
    struct tag_session s = {0};
    s.state = states[below(sizeof states)];
    if (!s.state) return s;
    s.held = (uint8_t)(has_link(&s) ? one_in(12) : one_in(3));
    s.reg = (uint8_t)(one_in(2) ? below(4) : 0);
    s.flags = (uint8_t)below(32);
    if (!has_round(&s)) return s;
    s.round = (uint8_t)below(4);
    s.q = (uint8_t)(one_in(2) ? below(3) : below(16));
    if (s.state == TAG_ARBITRATE) s.slot = (uint16_t)(one_in(2) ? below(3) : any16() >> 1);
    else s.number = (uint16_t)any16();
    if (!has_link(&s)) return s;
    if (!one_in(4)) s.covered = 1, s.cover = (uint16_t)any16();
    if (one_in(4)) {
        s.half = (uint8_t)(1 + below(2));
        s.upper = (uint16_t)(one_in(3) ? any16() : word(m, s.half == TAG_ACCESS_HALF ? 20 : 18));
    }
    return s;
}

/* another value in one field. Rounds, Qs and slots that no tag comes to are left out where they belong. */
static void field_random(struct tag_session *s) {
    uint8_t *small[] = {&s->state, &s->held, &s->reg, &s->covered, &s->half, &s->round, &s->q, &s->flags};
    uint16_t *large[] = {&s->number, &s->cover, &s->upper, &s->slot};
    unsigned i = below(12);
    if (i < 8) *small[i] = (uint8_t)(one_in(2) ? below(9) : one_in(2) ? below(40) : below(256));
    else *large[i - 8] = (uint16_t)(one_in(2) ? below(3) : any16());
    if (has_round(s)) s->round &= 3, s->q &= 15;
    if (s->state == TAG_ARBITRATE) s->slot &= 0x7FFF;
}

/* a record that no session is written as; the library takes it for Off, and the rivals are handed Off */
static int no_session(const struct tag_session *s) {
    if (s->state > TAG_KILLED || s->half > TAG_KILL_HALF || s->held > 1 || s->covered > 1 || s->reg > 3 || s->flags > 31) return 1;
    if (s->state == TAG_OFF && (s->held | s->reg | s->flags)) return 1;
    if (!has_round(s) && (s->round | s->q)) return 1;
    if (!has_link(s) && (s->covered | s->half)) return 1;
    if ((!has_round(s) || s->state == TAG_ARBITRATE) && s->number) return 1;
    return (!s->covered && s->cover) || (!s->half && s->upper) || (s->state != TAG_ARBITRATE && s->slot);
}

/* it has no padding */
static int same_session(const struct tag_session *a, const struct tag_session *b) { return !memcmp(a, b, sizeof *a); }

/* ---- frames of every kind ---- */

/* a mask on the bits of a bank, mostly inside it and mostly theirs */
static void select_random(struct frame *f, const uint8_t *m) {
    unsigned bank = one_in(16) ? 0 : 1 + below(3), from = 16 * word(m, 4 + 2 * bank), bits = 16 * word(m, 5 + 2 * bank);
    unsigned length = one_in(3) ? below(256) : one_in(4) ? 0 : below(70), at = one_in(8) ? any16() : below(bits + 9);
    if (!one_in(6) && length <= bits) at = one_in(4) ? bits - length : below(bits - length + 1);
    unsigned other = one_in(3) && length ? below(length) : length;
    frame_bits(f, 10, 4);
    frame_bits(f, one_in(16) ? below(8) : below(5), 3);
    frame_bits(f, below(8), 3);
    frame_bits(f, bank, 2);
    frame_pointer(f, at, 1 + below(3) * below(2));
    frame_bits(f, length, 8);
    for (unsigned j = 0; j < length; j++) {
        size_t i = from + at + j;
        frame_bits(f, ((i < 8 * 9604 ? m[i / 8] >> (7 - i % 8) & 1 : 0) ^ (j == other)) & 1, 1);
    }
    frame_bits(f, one_in(16), 1);
    frame_end(f);
}

static void inventory_random(struct frame *f, const uint8_t *m, const struct tag_session *s) {
    static const uint8_t turns[] = {6, 0, 3};
    unsigned round = one_in(4) ? below(4) : s->round;
    switch (below(5)) {
    case 0: frame_bits(f, 0, 2), frame_bits(f, round, 2); break;
    case 1: frame_bits(f, 1, 2), frame_bits(f, one_in(4) ? any16() : s->number, 16); break;
    case 2:
        frame_bits(f, 8, 4);
        frame_bits(f, below(16), 4);
        frame_bits(f, below(4), 2);
        frame_bits(f, round, 2);
        frame_bits(f, below(2), 1);
        frame_bits(f, one_in(2) ? below(3) : below(16), 4);
        frame_end5(f);
        break;
    case 3:
        frame_bits(f, 9, 4);
        frame_bits(f, round, 2);
        frame_bits(f, one_in(4) ? below(8) : turns[below(3)], 3);
        break;
    default: select_random(f, m);
    }
}

static void command_random(struct frame *f, const uint8_t *m, const struct tag_session *s) {
    static const uint8_t likely[] = {1, 2, 3, 3, 4, 4, 5, 6, 6, 7, 7, 8, 9, 9};
    unsigned code = one_in(30) ? below(256) : one_in(20) ? 0xC0 : 0xC0 + likely[below(sizeof likely)];
    if (s->half && one_in(2)) code = s->half == TAG_ACCESS_HALF ? 0xC6 : 0xC4;
    unsigned bank = below(4), words = word(m, 5 + 2 * bank), least = 1 + below(3) * below(2), count = one_in(3) ? below(256) : below(20);
    unsigned at = one_in(3) ? below(words + 3) : below(words < 4 ? words + 1 : 4);
    if (code == 0xC2 && one_in(3)) count = 0;
    frame_bits(f, code, 8);
    if (code == 0xC0 && !one_in(3)) return;
    switch (code) {
    case 0xC2:
    case 0xC8:
    case 0xC3:
    case 0xC7:
        frame_bits(f, bank, 2);
        frame_pointer(f, one_in(20) ? any16() : at, least);
        if (code == 0xC3) {
            frame_bits(f, any16() ^ s->cover, 16);
        } else {
            frame_bits(f, count, 8);
            if (code == 0xC7)
                for (unsigned j = 0; j < count; j++) frame_bits(f, one_in(2) ? below(2048) : any16(), 16);
        }
        break;
    case 0xC4:
    case 0xC6:
        frame_bits(f, (one_in(4) ? any16() : word(m, (code == 0xC4 ? 18 : 20) + (s->half != 0))) ^ s->cover, 16);
        if (code == 0xC4) frame_bits(f, below(8), 3);
        break;
    case 0xC5: frame_bits(f, one_in(2) ? below(1024) : 1u << below(10), 10), frame_bits(f, below(1024), 10); break;
    case 0xC9: {
        unsigned perma = word(m, 13) % 17, locks = below(2), range = one_in(4) ? below(20) : perma ? 1 + below(perma) : 0;
        frame_bits(f, one_in(12) ? below(256) : 0, 8);
        frame_bits(f, locks, 1);
        frame_bits(f, one_in(8) ? below(4) : 3, 2);
        frame_pointer(f, one_in(3) ? below(20) : 0, least);
        frame_bits(f, range, 8);
        if (locks)
            for (unsigned j = 0; j < range; j++) frame_bits(f, one_in(3) ? any16() : one_in(2) ? 0x8000 : 0, 16);
    }
    }
    frame_bits(f, one_in(20) ? any16() : s->number, 16);
    frame_end(f);
}

/* a frame, sometimes with a bit changed, of another length, or of some bits alone */
static void frame_random(struct frame *f, const uint8_t *m, const struct tag_session *s) {
    frame_start(f);
    if (one_in(2)) inventory_random(f, m, s);
    else command_random(f, m, s);
    if (one_in(14)) f->bytes[below((unsigned)(f->n + 7) / 8)] ^= (uint8_t)(1u << below(8));
    if (one_in(30)) f->n = f->n + below(20) - 10;
    if (one_in(30)) f->n = below(10), f->bytes[0] = (uint8_t)below(256);
    if (f->n > 8 * sizeof f->bytes) f->n = 0;
}

/* ---- the comparison ---- */

static uint8_t before[9604], image[3][9604], room[3][8300];
static int differences;
static unsigned seen[16];

static void compare(const char *call, const struct tag_outcome *o, int way, int answer, const struct tag_session *s, const struct rival_out *out) {
    if (o->answer == answer && same_session(&o->session, s) && o->reply == out->reply && o->stores == out->stores && o->value == out->value &&
        !memcmp(image[0], image[way], sizeof image[0]) && !memcmp(room[0], room[way], sizeof room[0]))
        return;
    if (differences++ < 10)
        printf("%s differs from rival %d: answers %d %d, states %d %d, bits %d %d, stores %d %d\n", call, way, o->answer, answer, o->session.state,
               s->state, (int)o->reply, (int)out->reply, (int)o->stores, (int)out->stores);
}

static int same_layout(const struct tag_sheet *t, const struct rival_layout *y) {
    return t->block == y->block && t->status.at == y->status && t->status.words == 2 && t->reserved.at == y->reserved &&
           t->reserved.words == y->reserved_words && t->epc.at == y->epc && t->epc.words == y->epc_words && t->tid.at == y->tid &&
           t->tid.words == y->tid_words && t->user.at == y->user && t->user.words == y->user_words && t->perma.at == y->perma &&
           t->perma.words == y->perma_words && t->work.at == y->work && t->work.words == 1 + 2 * y->pairs;
}

static void one(void) {
    static const struct tag_session off;
    static struct frame f;
    static uint8_t words[520];
    struct rival_out out[2] = {{0}};
    size_t n = image_random(before), power = one_in(3) ? below(one_in(2) ? 6 : 60) : 9999, at = below(70), count = one_in(4) ? below(300) : below(20);
    unsigned fresh = one_in(2) ? any16() : any16() << below(16) & 0xFFFF;
    struct tag_session given = session_random(before), s[2];
    if (one_in(8))
        for (unsigned k = 1 + below(2); k; k--) field_random(&given);
    s[0] = s[1] = no_session(&given) ? off : given;
    size_t rn = one_in(6) ? below(3) : one_in(4) ? below(one_in(2) ? 12 : 80) : one_in(4) ? below(600) : sizeof room[0];
    for (int i = 0; i < 3; i++) memcpy(image[i], before, sizeof before), memset(room[i], 0xA5, sizeof room[i]);
    frame_random(&f, before, &given);
    for (size_t i = 0; i < sizeof words; i++) words[i] = (uint8_t)below(256);
    size_t fn = one_in(30) ? below(8) : (f.n + 7) / 8, wn = 2 * count + one_in(20);
    if (fn > sizeof f.bytes) fn = sizeof f.bytes;
    if (wn > sizeof words) wn = sizeof words;
    struct tag_outcome o;
    struct rival_layout y[2];
    int a[2];
    const char *call;
    switch (below(20)) {
    case 0:
        call = "power_up";
        o = tag_power_up(image[0], n, power);
        a[0] = table_power_up(&s[0], image[1], n, power, &out[0]);
        a[1] = wide_power_up(&s[1], image[2], n, power, &out[1]);
        break;
    case 1:
        call = "ask";
        o = tag_ask(given);
        a[0] = table_ask(&s[0]);
        a[1] = wide_ask(&s[1]);
        break;
    case 2:
        call = "release";
        o = tag_release(given);
        a[0] = table_release(&s[0]);
        a[1] = wide_release(&s[1]);
        break;
    case 3:
        call = "register";
        o = tag_register(given);
        a[0] = table_register(&s[0], &out[0]);
        a[1] = wide_register(&s[1], &out[1]);
        break;
    case 4:
    case 5:
        call = "read";
        o = tag_read(given, image[0], n, at, count, room[0], rn);
        a[0] = table_read(&s[0], image[1], n, at, count, room[1], rn, &out[0]);
        a[1] = wide_read(&s[1], image[2], n, at, count, room[2], rn, &out[1]);
        break;
    case 6:
    case 7:
        call = "write";
        o = tag_write(given, image[0], n, at, words, wn, power);
        a[0] = table_write(&s[0], image[1], n, at, words, wn, power, &out[0]);
        a[1] = wide_write(&s[1], image[2], n, at, words, wn, power, &out[1]);
        break;
    case 8: {
        struct tag_sheet t = tag_check(image[0], n);
        if (t.answer != table_check(before, n, &y[0]) || t.answer != wide_check(before, n, &y[1]) ||
            (!t.answer && !(same_layout(&t, &y[0]) && same_layout(&t, &y[1]))))
            differences++, printf("check differs\n");
        seen[15]++;
        return;
    }
    default:
        call = "frame";
        o = tag_frame(given, image[0], n, f.n, f.bytes, fn, (uint16_t)fresh, room[0], rn, power);
        a[0] = table_frame(&s[0], image[1], n, f.bytes, fn, f.n, fresh, room[1], rn, power, &out[0]);
        a[1] = wide_frame(&s[1], image[2], n, f.bytes, fn, f.n, fresh, room[2], rn, power, &out[1]);
    }
    seen[o.answer]++;
    for (int i = 0; i < 2; i++) compare(call, &o, i + 1, a[i], &s[i], &out[i]);
}

int agree(unsigned calls) {
    for (unsigned i = 0; i < calls; i++) one();
    printf("agree: %u calls, %d differences; by answer:", calls, differences);
    for (unsigned i = 0; i < 15; i++) printf(" %u", seen[i]);
    printf("; checks %u\n", seen[15]);
    return differences;
}
