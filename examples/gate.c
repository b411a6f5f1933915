/* A depot gate around the library: it finds a tag by inventory, opens it with its access password, writes a loan entry to USER and reads it
   back. Each frame comes from depot_make, and each reply is read by depot_read: the gate counts no bit, but to take words out (word_of). The
   tag is played by tag_frame, as if over the air; of a real one the gate knows no more than what this one replies. Exits with 1 where anything
   is not as it should be. After `rt lib` in crates/capi, on x86-64:

       cc -std=c11 -Iinclude examples/gate.c crates/capi/out/libcapi.a -o gate && ./gate */
#include <stdio.h>
#include "swellbinnacle.h"

/* The tag */

static uint8_t image[156];         /* 16 words of USER in blocks of 4; kill password 4B494C4Ch, access password ACCE55EDh */
static struct tag_session session;

static void tag_begins(void) {
    static const uint16_t words[] = {7,      4,      16,     2,      18,     4,      22,     4,      26,     2,      28,
                                     16,     44,     1,      45,     33,     0,      0,      0x4B49, 0x4C4C, 0xACCE, 0x55ED,
                                     0x9297, 0x1000, 0x3034, 0x0257, 0xE200, 0x6001, 3,      3,      6,      10};
    for (size_t i = 0; i < sizeof words / sizeof words[0]; i++) {
        image[2 * i] = (uint8_t)(words[i] >> 8);
        image[2 * i + 1] = (uint8_t)words[i];
    }
    session = tag_power_up(image, sizeof image, 100).session;
}

/* Hands back the bits of the reply; 0: the tag is silent. The random words are drawn one after the other. */
static size_t over_the_air(const uint8_t *frame, size_t bits, uint8_t *reply, size_t reply_bytes) {
    static const uint16_t drawn[] = {0x2C93, 0x7F01, 0x33D4, 0x613A, 0x0B5E, 0xA5C3, 0x0F1E, 0x9D20, 0x7B2D, 0x4C4F};
    static size_t next;
    uint16_t random = drawn[next++ % (sizeof drawn / sizeof drawn[0])];
    struct tag_outcome o =
        tag_frame(session, image, sizeof image, bits, frame, (bits + 7) / 8, random, reply, reply_bytes, 1000);
    session = o.session;
    return o.reply;
}

/* The gate */

static int wrong; /* what was not as it should be */

static void expect(int right, const char *what) {
    if (!right) {
        wrong++;
        printf("wrong: %s\n", what);
    }
}

/* The i-th word of a reply, at any bit. */
static unsigned word_of(const uint8_t *reply, struct depot_reply r, size_t i) {
    size_t bit = r.at + 16 * i;
    unsigned three = reply[bit / 8] * 65536u + reply[bit / 8 + 1] * 256u + (bit % 8 ? reply[bit / 8 + 2] : 0u);
    return three >> (8 - bit % 8) & 0xFFFF;
}

static uint8_t reply[8197]; /* holds any reply */
static size_t reply_bits;

/* Sends a command with its payload, the number that it carries and a cover number, and reads what comes back: kind DEPOT_NOTHING and answer 0
   where nothing does, the depot's number where it refuses. */
static struct depot_reply ask_tag(const char *name, struct depot_command command, const uint8_t *payload, size_t payload_bytes,
                                  uint16_t number, uint16_t cover) {
    uint8_t frame[521]; /* holds any frame */
    struct depot_frame f = depot_make(command, payload, payload_bytes, number, cover, frame, sizeof frame);
    struct depot_reply nothing = {f.answer, DEPOT_NOTHING, 0, 0};
    printf("%-10s", name);
    if (f.answer != 0) {
        printf(" refused %d\n", (int)f.answer);
        return nothing;
    }
    for (size_t i = 0; i < (f.bits + 7) / 8; i++) printf("%s%02x", i == 0 ? " " : "", frame[i]);
    reply_bits = over_the_air(frame, f.bits, reply, sizeof reply);
    printf(" (%d bits) ->", (int)f.bits);
    if (reply_bits == 0) {
        printf(" nothing\n");
        return nothing;
    }
    struct depot_reply r = depot_read(command, payload, payload_bytes, number, reply_bits, reply, sizeof reply);
    if (r.answer != 0) printf(" refused %d", (int)r.answer);
    if (r.kind == DEPOT_ERROR) printf(" error %02x", (unsigned)r.value);
    if (r.kind == DEPOT_NUMBER) printf(" number %04x", (unsigned)r.value);
    if (r.kind == DEPOT_DONE) printf(" done");
    if (r.kind == DEPOT_WORDS) {
        printf(" words");
        for (size_t i = 0; i < r.value; i++) printf(" %04x", word_of(reply, r, i));
    }
    printf("\n");
    return r;
}

static const uint8_t none[1]; /* a payload of no bytes needs a pointer too */

static struct depot_reply plain(const char *name, struct depot_command command, uint16_t number, uint16_t cover) {
    return ask_tag(name, command, none, 0, number, cover);
}

/* A new number of the tag: after an ACK the handle, after that a cover number. */
static uint16_t new_number(uint16_t number) {
    struct depot_reply r = plain("Req_RN", (struct depot_command){.kind = DEPOT_REQ_RN}, number, 0);
    expect(r.kind == DEPOT_NUMBER, "Req_RN brings a number");
    return (uint16_t)r.value;
}

/* A half of the access password, covered by a number that is asked for before it. */
static void open_half(uint16_t handle, uint16_t half) {
    uint16_t cover = new_number(handle);
    struct depot_reply r = plain("Access", (struct depot_command){.kind = DEPOT_ACCESS, .word = half}, handle, cover);
    expect(r.kind == DEPOT_NUMBER && r.value == handle, "Access is answered with the handle");
}

int main(void) {
    static const uint8_t entry[] = {0x00, 0x02, 0x00, 0x03, 0x00, 0x05, 0x00, 0x0C, 0x00, 0x48, 0x1A, 0x25, 0x00, 0x00};
    const struct depot_command query = {.kind = DEPOT_QUERY, .q = 2}, rep = {.kind = DEPOT_QUERY_REP};
    const struct depot_command block = {.kind = DEPOT_BLOCK_WRITE, .bank = 3, .pointer = 0};
    struct depot_command reading = {.kind = DEPOT_READ, .bank = 3, .pointer = 0, .count = sizeof entry / 2};
    tag_begins();

    /* Who is there? In one of four slots the tag replies a number. */
    struct depot_reply r = plain("Query", query, 0, 0);
    for (int slot = 1; slot < 4 && r.kind == DEPOT_NOTHING; slot++) r = plain("QueryRep", rep, 0, 0);
    expect(r.kind == DEPOT_NUMBER, "a tag replies in one of the slots");
    uint16_t number = (uint16_t)r.value;
    r = plain("ACK", (struct depot_command){.kind = DEPOT_ACK}, number, 0);
    expect(r.kind == DEPOT_WORDS && r.value == 3 && word_of(reply, r, 1) == 0x3034 && word_of(reply, r, 2) == 0x0257, "ACK brings the EPC");

    /* Its handle; then its access password, in halves. */
    uint16_t handle = new_number(number);
    open_half(handle, 0xACCE);
    open_half(handle, 0x55ED);

    /* The loan entry, and what the tag holds of it. */
    r = ask_tag("BlockWrite", block, entry, sizeof entry, handle, 0);
    expect(r.kind == DEPOT_DONE, "the entry is written");
    r = plain("Read", reading, handle, 0);
    expect(r.kind == DEPOT_WORDS && r.value == sizeof entry / 2, "as many words as were asked for");
    for (size_t i = 0; i < sizeof entry / 2 && i < r.value; i++)
        expect(word_of(reply, r, i) == entry[2 * i] * 256u + entry[2 * i + 1], "the words read are the words written");

    /* The same bits are no reply of another tag, and with one of them turned over no reply at all. */
    r = depot_read(reading, none, 0, handle ^ 1, reply_bits, reply, sizeof reply);
    expect(r.answer == 15 && r.kind == DEPOT_NOTHING, "another tag's words are not read");
    reply[3] ^= 0x10;
    r = depot_read(reading, none, 0, handle, reply_bits, reply, sizeof reply);
    expect(r.answer == 8 && r.kind == DEPOT_NOTHING, "a wrong CRC-16 is not read");

    /* What the tag has not, it says; what no frame says is not sent. */
    reading.pointer = 16;
    r = plain("Read", reading, handle, 0);
    expect(r.kind == DEPOT_ERROR && r.value == 3, "there is no such word");
    reading.bank = 4;
    expect(depot_make(reading, none, 0, handle, 0, reply, sizeof reply).answer == 9, "no frame names a fifth bank");
    if (wrong == 0) printf("all as it should be\n");
    return wrong != 0;
}
