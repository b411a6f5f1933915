/* Sends a distinct value through every field of every struct, in and out, and through every argument. Each line that is printed is a field
   that arrived wrong. */
#include <stdio.h>
#include <string.h>
#include "swellbinnacle.h"

static int bad, seen;

static void is(const char *what, size_t found, size_t wanted) {
    seen++;
    if (found != wanted) {
        bad++;
        printf("bad: %s is %d, not %d\n", what, (int)found, (int)wanted);
    }
}

static uint8_t image[2 * 116];

static void put(size_t i, unsigned v) {
    image[2 * i] = (uint8_t)(v >> 8);
    image[2 * i + 1] = (uint8_t)v;
}

static unsigned get(const uint8_t *b, size_t i) { return b[2 * i] * 256u + b[2 * i + 1]; }

/* every number of the sheet differs */
static void fill(void) {
    static const uint16_t header[] = {7, 7, 16, 2, 18, 5, 23, 6, 29, 3, 32, 48, 80, 1, 81, 35};
    memset(image, 0, sizeof image);
    for (size_t i = 0; i < 16; i++) put(i, header[i]);
    put(18, 0x4B49);
    put(19, 0x4C4C);
    put(24, 0x1000);
    for (size_t i = 0; i < 48; i++) put(32 + i, 0x4000 + (unsigned)i);
}

static void sheet(void) {
    struct tag_sheet s = tag_check(image, sizeof image);
    is("sheet.answer", s.answer, 0);
    is("sheet.block", s.block, 7);
    is("sheet.status.at", s.status.at, 16);
    is("sheet.status.words", s.status.words, 2);
    is("sheet.reserved.at", s.reserved.at, 18);
    is("sheet.reserved.words", s.reserved.words, 5);
    is("sheet.epc.at", s.epc.at, 23);
    is("sheet.epc.words", s.epc.words, 6);
    is("sheet.tid.at", s.tid.at, 29);
    is("sheet.tid.words", s.tid.words, 3);
    is("sheet.user.at", s.user.at, 32);
    is("sheet.user.words", s.user.words, 48);
    is("sheet.perma.at", s.perma.at, 80);
    is("sheet.perma.words", s.perma.words, 1);
    is("sheet.work.at", s.work.at, 81);
    is("sheet.work.words", s.work.words, 35);
    put(17, 2);
    s = tag_check(image, sizeof image);
    is("refused sheet.answer", s.answer, 3);
    is("refused sheet.work.words", s.work.words, 0);
    put(17, 0);
}

static void same(const char *what, struct tag_session a, struct tag_session b) {
    is(what, a.state, b.state);
    is(what, a.held, b.held);
    is(what, a.reg, b.reg);
    is(what, a.covered, b.covered);
    is(what, a.half, b.half);
    is(what, a.round, b.round);
    is(what, a.q, b.q);
    is(what, a.flags, b.flags);
    is(what, a.number, b.number);
    is(what, a.cover, b.cover);
    is(what, a.upper, b.upper);
    is(what, a.slot, b.slot);
}

/* a release that is refused hands the record back: every number at once, then every register and every set of flags */
static void session(void) {
    static const struct tag_session off;
    struct tag_session full = {.state = TAG_SECURED, .reg = 3, .covered = 1, .half = TAG_KILL_HALF, .round = 5, .q = 13, .flags = 21,
                               .number = 0x1234, .cover = 0x5678, .upper = 0x9ABC};
    struct tag_outcome o = tag_release(full);
    is("release.answer", o.answer, 6);
    same("session back", o.session, full);
    full.reg = 1;
    same("session back, killed", tag_release(full).session, full);
    full.half = TAG_ACCESS_HALF;
    same("session back, access", tag_release(full).session, full);
    full.number = 0;
    same("session back, handle 0", tag_release(full).session, full);
    for (unsigned i = 0; i < 32; i++) {
        struct tag_session one = {.state = TAG_READY, .flags = (uint8_t)i};
        same("session back, flags", tag_release(one).session, one);
    }
    for (unsigned i = 0; i < 4; i++) {
        struct tag_session one = {.state = TAG_KILLED, .reg = (uint8_t)i};
        same("session back, register", tag_release(one).session, one);
        one.held = 1;
        struct tag_outcome r = tag_register(one);
        is("register.value", r.value, i);
        one.reg = 0;
        same("register read", r.session, one);
    }
    struct tag_session waiting = {.state = TAG_ARBITRATE, .round = 3, .q = 11, .slot = 0x6789};
    same("session back, slot", tag_release(waiting).session, waiting);
    struct tag_session held = {.state = TAG_KILLED, .held = 1, .reg = 1};
    is("ask while held", tag_ask(held).answer, 6);
    held.held = 0;
    is("ask while free", tag_ask(held).session.held, 1);
    full.covered = 0;
    o = tag_release(full);
    is("stray cover, answer", o.answer, 5);
    same("stray cover", o.session, off);
}

/* a record that is no session's is answered as Off */
static void stray(const char *what, struct tag_session s) {
    static const struct tag_session off;
    struct tag_outcome o = tag_release(s);
    is(what, o.answer, 5);
    same(what, o.session, off);
}

static void strays(void) {
    stray("unknown state", (struct tag_session){.state = 8});
    stray("stray held", (struct tag_session){.held = 1});
    stray("stray register", (struct tag_session){.reg = 1});
    stray("stray S0", (struct tag_session){.flags = TAG_FLAG_S0});
    stray("stray SL", (struct tag_session){.flags = TAG_FLAG_SL});
    stray("stray round", (struct tag_session){.state = TAG_READY, .round = 1});
    stray("stray Q", (struct tag_session){.state = TAG_READY, .q = 1});
    stray("stray slot", (struct tag_session){.state = TAG_REPLY, .slot = 1});
    stray("stray number", (struct tag_session){.state = TAG_ARBITRATE, .number = 1});
    stray("cover in Acknowledged", (struct tag_session){.state = TAG_ACKNOWLEDGED, .covered = 1});
    stray("half in Reply", (struct tag_session){.state = TAG_REPLY, .half = TAG_ACCESS_HALF});
    stray("held of 2", (struct tag_session){.state = TAG_READY, .held = 2});
    stray("covered of 2", (struct tag_session){.state = TAG_OPEN, .covered = 2});
    stray("half of 3", (struct tag_session){.state = TAG_OPEN, .half = 3});
    for (unsigned i = 4; i < 256; i++) stray("register above 3", (struct tag_session){.state = TAG_READY, .reg = (uint8_t)i});
    for (unsigned i = 32; i < 256; i++) stray("flags above 31", (struct tag_session){.state = TAG_READY, .flags = (uint8_t)i});
}

/* the inventory's fields: Select turns SL, Query draws round and slot, QueryAdjust and QueryRep move Q and slot, ACK tells the EPC */
static void inventory(void) {
    static const uint8_t select[] = {0xA8, 0x11, 0x01, 0x01, 0x00, 0x02, 0xA2, 0xA8}; /* SL, action 000, EPC from bit 16 on: 1000h */
    static const uint8_t query[] = {0x80, 0xE6, 0x0C};                                /* SL asserted, S2, target A, Q = 12 */
    static const uint8_t adjust[] = {0x9B, 0x00};                                     /* S2, Q one more */
    static const uint8_t rep[] = {0x20};                                              /* S2 */
    static const uint8_t ack[] = {0x70, 0x00, 0x00};                                  /* C000h */
    struct tag_session ready = {.state = TAG_READY, .flags = TAG_FLAG_S1};
    uint8_t room[12];
    memset(room, 0xEE, sizeof room);
    struct tag_outcome o = tag_frame(ready, image, sizeof image, 61, select, 8, 0, room, 0, 0);
    is("select.answer", o.answer, 0);
    is("select.flags", o.session.flags, TAG_FLAG_S1 | TAG_FLAG_SL);
    o = tag_frame(o.session, image, sizeof image, 22, query, 3, 0x5ABC, room, 0, 0);
    is("query.answer", o.answer, 0);
    is("query.state", o.session.state, TAG_ARBITRATE);
    is("query.round", o.session.round, 2);
    is("query.q", o.session.q, 12);
    is("query.slot", o.session.slot, 0xABC);
    o = tag_frame(o.session, image, sizeof image, 9, adjust, 2, 0x7777, room, 0, 0);
    is("adjust.q", o.session.q, 13);
    is("adjust.slot", o.session.slot, 0x1777);
    o = tag_frame(o.session, image, sizeof image, 4, rep, 1, 0, room, 0, 0);
    is("rep.slot", o.session.slot, 0x1776);
    is("adjust with a small room", tag_frame(o.session, image, sizeof image, 9, adjust, 2, 0xC000, room, 1, 0).answer, 4);
    o = tag_frame(o.session, image, sizeof image, 9, adjust, 2, 0xC000, room, 2, 0);
    is("reply.state", o.session.state, TAG_REPLY);
    is("reply.reply", o.reply, 16);
    is("reply.number", o.session.number, 0xC000);
    is("reply: the room", get(room, 0), 0xC000);
    is("reply: past the reply", room[2], 0xEE);
    o = tag_frame(o.session, image, sizeof image, 18, ack, 3, 0, room, sizeof room, 0);
    is("ack.state", o.session.state, TAG_ACKNOWLEDGED);
    is("ack.reply", o.reply, 64);
    is("ack.q", o.session.q, 14);
    is("ack: the room", get(room, 0) * 65536 + get(room, 3), 0x1000EB6B);
    o = tag_frame(o.session, image, sizeof image, 4, rep, 1, 0, room, 0, 0);
    ready.flags |= TAG_FLAG_S2 | TAG_FLAG_SL;
    same("rep ends the round", o.session, ready);
}

/* arguments and the outcome's other fields: a covered Write, a Read, the halves of a Kill, a cut power-up, the port */
static void calls(void) {
    static const uint8_t write[] = {0xC3, 0xC0, 0xFC, 0x65, 0xC4, 0x8D, 0x0C, 0xDE, 0x80};
    static const uint8_t read[] = {0xC2, 0xC0, 0xC0, 0x84, 0x8D, 0x1F, 0xEA, 0x80};
    static const uint8_t kill[] = {0xC4, 0x11, 0x13, 0x02, 0x46, 0x8D, 0x0D, 0xE0};
    static const uint8_t rn[] = {0xC1, 0x12, 0x34, 0x31, 0x62};
    struct tag_session secured = {.state = TAG_SECURED, .covered = 1, .number = 0x1234, .cover = 0x5A5A};
    uint8_t room[12], words[4] = {0xA1, 0xA2, 0xA3, 0xA4};
    memset(room, 0xEE, sizeof room);
    struct tag_outcome o = tag_frame(secured, image, sizeof image, 66, write, 9, 0x7777, room, sizeof room, 5);
    is("frame.answer", o.answer, 0);
    is("frame.reply", o.reply, 33);
    is("frame.stores", o.stores, 5);
    is("frame.covered", o.session.covered, 0);
    is("frame: the word", get(image, 35), 0xABCD);
    is("frame: the room", room[0] * 256u + room[1], 0x091A);
    is("frame: past the reply", room[5], 0xEE);
    o = tag_frame(secured, image, sizeof image, 66, write, 9, 0x7777, room, sizeof room, 2);
    is("frame with power for 2, answer", o.answer, 11);
    is("frame with power for 2, stores", o.stores, 2);
    o = tag_frame(secured, image, sizeof image, 66, write, 8, 0x7777, room, sizeof room, 5);
    is("frame with a byte less", o.answer, 7);
    o = tag_frame(secured, image, sizeof image, 58, read, 8, 0x7777, room, 8, 0);
    is("frame with a small room", o.answer, 4);
    o = tag_frame(secured, image, sizeof image, 58, read, 8, 0x7777, room, 9, 0);
    is("read.reply", o.reply, 65);
    is("read: the room", (room[0] * 256u + room[1]) % 32768 * 2 + room[2] / 128, 0xABCD);
    o = tag_frame(secured, image, sizeof image, 40, rn, 5, 0x7777, room, sizeof room, 0);
    is("frame: the fresh word", o.session.cover, 0x7777);
    o = tag_frame(secured, image, sizeof image, 59, kill, 8, 0x7777, room, sizeof room, 0);
    is("kill.upper", o.session.upper, 0x4B49);
    is("kill.half", o.session.half, TAG_KILL_HALF);
    struct tag_session halfway = o.session;
    halfway.covered = 1;
    halfway.cover = 0x5A5A;
    o = tag_frame(halfway, image, sizeof image, 59, kill, 8, 0x7777, room, sizeof room, 5);
    is("kill with a wrong lower half", o.answer, 12);
    is("kill with a wrong lower half, state", o.session.state, TAG_ARBITRATE);
    o = tag_frame(halfway, image, sizeof image, 66, write, 9, 0x7777, room, sizeof room, 5);
    is("write between the halves", o.answer, 14);
    is("write between the halves, state", o.session.state, TAG_ARBITRATE);
    struct tag_session held = {.state = TAG_READY, .held = 1};
    o = tag_write(held, image, sizeof image, 46, words, 4, 8);
    is("write.answer", o.answer, 0);
    is("write.stores", o.stores, 8);
    is("write: the words", get(image, 78) * 65536 + get(image, 79), 0xA1A2A3A4);
    is("write past the end", tag_write(held, image, sizeof image, 47, words, 4, 8).answer, 13);
    is("write with power for 7", tag_write(held, image, sizeof image, 46, words, 4, 7).answer, 11);
    is("power-up with power for 1", tag_power_up(image, sizeof image, 1).answer, 11);
    o = tag_power_up(image, sizeof image, 9);
    is("power-up.answer", o.answer, 0);
    is("power-up.stores", o.stores, 4);
    is("power-up.state", o.session.state, TAG_READY);
    o = tag_read(held, image, sizeof image, 45, 3, room, 6);
    is("port read.reply", o.reply, 48);
    is("port read: the room", get(room, 0) * 65536 + get(room, 2), 0x402DA3A4);
    is("port read, small room", tag_read(held, image, sizeof image, 45, 3, room, 5).answer, 4);
    is("image of a byte less", tag_read(held, image, sizeof image - 1, 45, 3, room, 6).answer, 2);
}

/* a depot's command in which every field is too large for any kind, and different from the others: what a kind does not use means nothing */
static struct depot_command stuffed(unsigned kind) {
    return (struct depot_command){.kind = kind, .bank = 0xF0000001, .pointer = 0xF0000002, .count = 0xF0000003, .word = 0xF0000004,
                                  .mask = 0xF0000005, .action = 0xF0000006, .target = 0xF0000007, .session = 0xF0000008,
                                  .up_down = 0xF0000009, .dr = 0xF000000A, .m = 0xF000000B, .trext = 0xF000000C, .sel = 0xF000000D,
                                  .q = 0xF000000E};
}

static struct depot_command placed(unsigned kind, unsigned bank, unsigned pointer) {
    struct depot_command c = stuffed(kind);
    c.bank = bank;
    c.pointer = pointer;
    return c;
}

static struct depot_command worded(unsigned kind, unsigned word) {
    struct depot_command c = stuffed(kind);
    c.word = word;
    return c;
}

static struct depot_command counted(unsigned kind, unsigned bank, unsigned pointer, unsigned count) {
    struct depot_command c = placed(kind, bank, pointer);
    c.count = count;
    return c;
}

static struct depot_command locking(unsigned mask, unsigned action) {
    struct depot_command c = stuffed(DEPOT_LOCK);
    c.mask = mask;
    c.action = action;
    return c;
}

static struct depot_command selecting(unsigned target, unsigned action, unsigned bank, unsigned pointer, unsigned count) {
    struct depot_command c = counted(DEPOT_SELECT, bank, pointer, count);
    c.target = target;
    c.action = action;
    return c;
}

static struct depot_command querying(unsigned dr, unsigned m, unsigned trext, unsigned sel, unsigned session, unsigned target, unsigned q) {
    struct depot_command c = stuffed(DEPOT_QUERY);
    c.dr = dr;
    c.m = m;
    c.trext = trext;
    c.sel = sel;
    c.session = session;
    c.target = target;
    c.q = q;
    return c;
}

static struct depot_command turning(unsigned kind, unsigned session, unsigned up_down) {
    struct depot_command c = stuffed(kind);
    c.session = session;
    c.up_down = up_down;
    return c;
}

/* a room that nothing was stored in */
static void untouched(const char *what, const uint8_t *room, size_t bytes) {
    size_t moved = 0;
    for (size_t i = 0; i < bytes; i++) moved += room[i] != 0xEE;
    is(what, moved, 0);
}

/* the frame, in a room of just its bytes, with a byte behind it that stays; then without room, where every byte stays */
static void sends(const char *what, struct depot_command c, const char *payload, size_t payload_bytes, uint16_t number, uint16_t cover,
                  const char *wanted, size_t bits) {
    uint8_t room[16];
    size_t bytes = (bits + 7) / 8;
    memset(room, 0xEE, sizeof room);
    struct depot_frame f = depot_make(c, (const uint8_t *)payload, payload_bytes, number, cover, room, bytes - 1);
    is(what, f.answer, 4);
    is(what, f.bits, 0);
    untouched(what, room, sizeof room);
    f = depot_make(c, (const uint8_t *)payload, payload_bytes, number, cover, room, bytes);
    is(what, f.answer, 0);
    is(what, f.bits, bits);
    for (size_t i = 0; i < bytes; i++) is(what, room[i], (uint8_t)wanted[i]);
    untouched(what, room + bytes, sizeof room - bytes);
}

/* beyond the limits, for both */
static void beyond(const char *what, struct depot_command c, size_t payload_bytes) {
    static const uint8_t payload[514];
    uint8_t room[521];
    memset(room, 0xEE, sizeof room);
    struct depot_frame f = depot_make(c, payload, payload_bytes, 0xABCD, 0x1234, room, sizeof room);
    is(what, f.answer, 9);
    is(what, f.bits, 0);
    untouched(what, room, sizeof room);
    struct depot_reply r = depot_read(c, payload, payload_bytes, 0xABCD, 0, room, 0);
    is(what, r.answer, 9);
    is(what, r.kind + r.value + r.at, 0);
}

static void means(const char *what, struct depot_command c, const char *payload, size_t payload_bytes, uint16_t number, size_t bits,
                  const char *reply, size_t reply_bytes, size_t answer, size_t kind, size_t value, size_t at) {
    struct depot_reply r =
        depot_read(c, (const uint8_t *)payload, payload_bytes, number, bits, (const uint8_t *)reply, reply_bytes);
    is(what, r.answer, answer);
    is(what, r.kind, kind);
    is(what, r.value, value);
    is(what, r.at, at);
}

/* every kind and every field, as the standard lays them out. Each field stands in a frame with a value that no other field of it has, or is
   the only one that is 1 */
static void frames(void) {
    struct depot_command read = counted(DEPOT_READ, 3, 234, 5);
    sends("QueryRep", turning(DEPOT_QUERY_REP, 2, 9), "", 0, 0xABCD, 0x1234, "\x20", 4);
    sends("ACK", stuffed(DEPOT_ACK), "", 0, 0x6BCD, 0x1234, "\x5A\xF3\x40", 18);
    sends("Query, DR", querying(1, 2, 0, 3, 1, 0, 11), "", 0, 0xABCD, 0x1234, "\x8C\xD5\xF4", 22);
    sends("Query, TRext", querying(0, 1, 1, 2, 3, 0, 13), "", 0, 0xABCD, 0x1234, "\x83\xB6\x88", 22);
    sends("Query, target", querying(0, 3, 0, 1, 2, 1, 6), "", 0, 0xABCD, 0x1234, "\x86\x6B\x24", 22);
    sends("QueryAdjust", turning(DEPOT_QUERY_ADJUST, 1, 6), "", 0, 0xABCD, 0x1234, "\x97\x00", 9);
    sends("Select", selecting(4, 3, 2, 0x12345, 13), "\xB5\xD7", 2, 0xABCD, 0x1234, "\xA8\xE8\x4C\x64\x50\xDB\x5D\x0B\xC2\xC0", 74);
    sends("NAK", stuffed(DEPOT_NAK), "", 0, 0xABCD, 0x1234, "\xC0", 8);
    sends("Req_RN", stuffed(DEPOT_REQ_RN), "", 0, 0x6BCD, 0x1234, "\xC1\x6B\xCD\xFD\x95", 40);
    sends("Read", read, "", 0, 0xABCD, 0x1234, "\xC2\xE0\x5A\x81\x6A\xF3\x51\xFC\x80", 66);
    struct depot_command write = placed(DEPOT_WRITE, 1, 2);
    write.word = 0xEDCB;
    sends("Write", write, "", 0, 0xABCD, 0xFFFF, "\xC3\x40\x84\x8D\x2A\xF3\x4C\xCC\x80", 66);
    sends("Kill", worded(DEPOT_KILL, 0x4B49), "", 0, 0x1234, 0x5A5A, "\xC4\x11\x13\x02\x46\x8D\x0D\xE0", 59);
    sends("Lock", locking(0x2A5, 0x13C), "", 0, 0xABCD, 0x1234, "\xC5\xA9\x53\xCA\xBC\xDA\x41\xA0", 60);
    sends("Access", worded(DEPOT_ACCESS, 0xACCE), "", 0, 0xA5C3, 0x0F1E, "\xC6\xA3\xD0\xA5\xC3\x0F\x54", 56);
    sends("BlockWrite", placed(DEPOT_BLOCK_WRITE, 3, 0), "\0\2\0\3", 4, 0xA5C3, 0x1234,
          "\xC7\xC0\x00\x80\x00\x80\x00\xE9\x70\xE4\xB1\x80", 90);
    sends("BlockErase", counted(DEPOT_BLOCK_ERASE, 1, 127, 6), "", 0, 0xABCD, 0x1234, "\xC8\x5F\xC1\xAA\xF3\x4E\xA5\x00", 58);
    sends("BlockPermalock, reading", counted(DEPOT_READ_PERMALOCK, 3, 1, 9), "", 0, 0xABCD, 0x1234,
          "\xC9\x00\x60\x21\x35\x79\xB0\xD3\x40", 67);
    sends("BlockPermalock, locking", placed(DEPOT_PERMALOCK, 3, 4), "\xF0\x0F", 2, 0xABCD, 0x1234,
          "\xC9\x00\xE0\x80\x3E\x01\xF5\x79\xA3\x60\x20", 83);
}

static void limits(void) {
    static const uint8_t masks[510];
    uint8_t room[521];
    struct depot_command write = placed(DEPOT_WRITE, 1, 2), longest = placed(DEPOT_PERMALOCK, 3, 0x1FFFFF);
    is("longest frame, a byte less", depot_make(longest, masks, 510, 0xABCD, 0x1234, room, 520).answer, 4);
    is("longest frame", depot_make(longest, masks, 510, 0xABCD, 0x1234, room, 521).bits, 8 + 8 + 1 + 2 + 24 + 8 + 255 * 16 + 16 + 16);
    beyond("unknown kind", stuffed(16), 0);
    beyond("kind of all bits", stuffed(0xFFFFFFFF), 0);
    beyond("kind of 2^16 and ACK's", stuffed(0x10000 + DEPOT_ACK), 0);
    write.word = 0x10000;
    beyond("Write of 17 bits", write, 0);
    beyond("half of a Kill of 17 bits", worded(DEPOT_KILL, 0x10000), 0);
    beyond("half of an Access of 17 bits", worded(DEPOT_ACCESS, 0x10000), 0);
    beyond("Lock, mask of 17 bits", locking(0x10001, 1), 0);
    beyond("Lock, action of 17 bits", locking(1, 0x10001), 0);
    beyond("Lock, mask of 11 bits", locking(0x400, 1), 0);
    beyond("Select, action of 17 bits", selecting(4, 0x10003, 2, 7, 13), 2);
    beyond("Select, a byte more", selecting(4, 3, 2, 7, 13), 3);
    beyond("QueryRep, session 4", turning(DEPOT_QUERY_REP, 4, 0), 0);
    beyond("QueryAdjust, UpDn 1", turning(DEPOT_QUERY_ADJUST, 1, 1), 0);
    beyond("Query, Q of 16", querying(0, 0, 0, 0, 0, 0, 16), 0);
    beyond("Read of 256 words", counted(DEPOT_READ, 3, 234, 256), 0);
    beyond("Read from 2^21 on", counted(DEPOT_READ, 3, 0x200000, 5), 0);
    beyond("Read of bank 4", counted(DEPOT_READ, 4, 234, 5), 0);
    beyond("BlockWrite of no words", placed(DEPOT_BLOCK_WRITE, 3, 0), 0);
    beyond("BlockWrite of half a word", placed(DEPOT_BLOCK_WRITE, 3, 0), 3);
    beyond("BlockWrite of 256 words", placed(DEPOT_BLOCK_WRITE, 3, 0), 512);
}

/* every kind of reply, and every refusal of one; bits and bytes behind a reply mean nothing */
static void replies(void) {
    static const char error[] = "\x85\xD5\xE6\x9C\xE3\x7F\xEE", success[] = "\x55\xE6\x86\x42\x7F\xEE"; /* code 0B, handle ABCDh */
    static const char words[] = "\x08\x91\x19\xA2\x2A\xB3\x55\xE6\xDC\x91\xFF";                       /* 1122 3344 5566, ABCDh */
    struct depot_command read = counted(DEPOT_READ, 3, 234, 3), block = placed(DEPOT_BLOCK_WRITE, 3, 0);
    means("number", turning(DEPOT_QUERY_REP, 2, 9), "", 0, 0xABCD, 16, "\x61\x3A", 2, 0, DEPOT_NUMBER, 0x613A, 0);
    means("PC and EPC", stuffed(DEPOT_ACK), "", 0, 0x613A, 64, "\x10\x00\x30\x34\x02\x57\x92\x97", 8, 0, DEPOT_WORDS, 3, 0);
    means("handle", stuffed(DEPOT_REQ_RN), "", 0, 0x613A, 32, "\x43\x21\x8E\x2C", 4, 0, DEPOT_NUMBER, 0x4321, 0);
    means("Access, half", worded(DEPOT_ACCESS, 0xACCE), "", 0, 0xA5C3, 32, "\xA5\xC3\xE9\x54", 4, 0, DEPOT_NUMBER, 0xA5C3, 0);
    means("error", read, "", 0, 0xABCD, 41, error, 6, 0, DEPOT_ERROR, 0x0B, 0);
    means("error 04", counted(DEPOT_READ, 3, 0, 0), "", 0, 0xBEEF, 41, "\x82\x5F\x77\xF6\xA8\x80", 6, 0, DEPOT_ERROR, 4, 0);
    means("error to a BlockWrite", block, "\0\2", 2, 0xABCD, 41, error, 7, 0, DEPOT_ERROR, 0x0B, 0);
    means("words", read, "", 0, 0xABCD, 81, words, 11, 0, DEPOT_WORDS, 3, 1);
    means("done", block, "\0\2", 2, 0xABCD, 33, success, 6, 0, DEPOT_DONE, 0, 0);
    means("under 16 bits", read, "", 0, 0xABCD, 15, words, 11, 8, DEPOT_NOTHING, 0, 0);
    means("past the bytes", read, "", 0, 0xABCD, 81, words, 10, 8, DEPOT_NOTHING, 0, 0);
    means("a bit less", read, "", 0, 0xABCD, 80, words, 11, 8, DEPOT_NOTHING, 0, 0);
    means("another handle", read, "", 0, 0xABCC, 81, words, 11, 15, DEPOT_NOTHING, 0, 0);
    means("another tag's error", read, "", 0, 0xABCC, 41, error, 6, 15, DEPOT_NOTHING, 0, 0);
    means("a success for words", read, "", 0, 0xABCD, 33, success, 5, 15, DEPOT_NOTHING, 0, 0);
    means("fewer words", counted(DEPOT_READ, 3, 234, 4), "", 0, 0xABCD, 81, words, 11, 15, DEPOT_NOTHING, 0, 0);
    means("all words", counted(DEPOT_READ, 3, 234, 0), "", 0, 0xABCD, 81, words, 11, 0, DEPOT_WORDS, 3, 1);
    means("blocks", counted(DEPOT_READ_PERMALOCK, 3, 0, 3), "", 0, 0xABCD, 81, words, 11, 0, DEPOT_WORDS, 3, 1);
    means("NAK has no reply", stuffed(DEPOT_NAK), "", 0, 0xABCD, 33, success, 5, 15, DEPOT_NOTHING, 0, 0);
    means("no words brought", block, "", 0, 0xABCD, 33, success, 5, 9, DEPOT_NOTHING, 0, 0);
}

int main(void) {
    fill();
    sheet();
    session();
    strays();
    inventory();
    calls();
    frames();
    limits();
    replies();
    printf("fields: %d seen, %d bad\n", seen, bad);
    return bad != 0;
}
