/* Swellbinnacle for C: the tag's operations, and behind them a depot's, proved, in libcapi.a. docs/RULES.md has the rules by number.

   Every call has an answer for any numbers and any bytes. What C must keep, in every call:
   - each pointer is valid for the bytes counted after it, and not null, even where the count is 0;
   - image, frame, words, payload and room of one call do not overlap;
   - nothing else touches them until the call returns;
   - `stores`, where a call takes it, is no more than the word stores that the power will last. The call makes at most so many, the first of
     its list, and stops. If the power fails inside the last of those stores, one byte of that word may be made and the other not; the next
     whole power-up still leaves the old words or the new ones, never a mix (RULES D3; this rests on the library's stores being made in
     order). If it fails earlier than that, nothing is promised. A byte must be stored whole or not at all; bits torn inside one are not
     covered.
   The library allocates nothing, keeps nothing between calls and links nothing but memset.

   The tag's answers, by number (RULES 5); the depot's stand above its calls. "Everything stays": image, session and room are as before. A
   record that is no session's is Off, and comes back as Off, every field 0.
      0 done
      1 the image is under 32 bytes                                     everything stays
      2 its header is wrong, or its length is not the image's           everything stays
      3 a content rule is broken                                        everything stays
      4 the reply does not fit the room                                 everything stays
      5 the session is Off, or a change is pending: power up            everything stays
      6 the port is held, or not held when needed, or not granted       everything stays
      7 unknown code, length or pointer wrong                           everything stays
      8 CRC-16 or CRC-5 wrong                                           everything stays
      9 wrong number or state, no cover number, zero range or RFU, another session than the round's, an UpDn that is none, a Select of no
        flag or no bank or with a set truncate bit                      everything stays
     10 an error reply was given                                        the image stays; the cover number is used up
     11 the power was lost                                              the first stores were made; Off; no reply
     12 password wrong: its two halves do not make it                   the image and the flags stay; Arbitrate; no reply
     13 SPI count 0 or over 255, odd data, past USER's end, or a write of more words than a change may have
                                                                        everything stays
     14 halves broken: another command to this tag than Req_RN or NAK came between them
                                                                        the image and the flags stay; Arbitrate; no reply */
#ifndef SWELLBINNACLE_H
#define SWELLBINNACLE_H

#include <stddef.h>
#include <stdint.h>

/* tag_session.state */
enum { TAG_OFF, TAG_READY, TAG_ARBITRATE, TAG_REPLY, TAG_ACKNOWLEDGED, TAG_OPEN, TAG_SECURED, TAG_KILLED };

/* tag_session.half */
enum { TAG_NO_HALF, TAG_ACCESS_HALF, TAG_KILL_HALF };

/* tag_session.flags: any of these together. The inventoried flag of S0 to S3 is B; SL is asserted */
enum { TAG_FLAG_S0 = 1, TAG_FLAG_S1 = 2, TAG_FLAG_S2 = 4, TAG_FLAG_S3 = 8, TAG_FLAG_SL = 16 };

/* A session. Keep it from one call to the next; all fields 0 is Off. A record that no session is written as, as with an unknown state or a
   number where none belongs, is answered as Off. A round above 3, a Q above 15 or a slot above 7FFFh comes from no power-up and no frame; a
   record with one is answered like any other (RULES 10.3, 11.2).
   It is 16 bytes without padding, aligned to 8. To the library it is two numbers of 64 bits: `state` is the lowest byte of the first and
   `flags` its highest, `number` the lowest 16 bits of the second and `slot` its highest (RULES 10.1). */
struct tag_session {
    _Alignas(8) uint8_t state; /* TAG_OFF .. */
    uint8_t held;              /* 1: the port is held; 0 in Off */
    uint8_t reg;               /* the error register, 0 to 3: bit 1 some word was not written, bit 0 killed; 0 in Off */
    uint8_t covered;           /* 1: there is a cover number (Open, Secured) */
    uint8_t half;              /* TAG_NO_HALF .. : the password half that waits (Open, Secured) */
    uint8_t round;             /* Arbitrate to Secured: the round's session, 0 to 3; else 0 */
    uint8_t q;                 /* Arbitrate to Secured: the round's Q, 0 to 15; else 0 */
    uint8_t flags;             /* TAG_FLAG_S0 .. : bits 0 to 3, the inventoried flag of S0 to S3 is B; bit 4, SL is asserted; 0 in Off */
    uint16_t number;           /* Reply, Acknowledged: the number replied; Open, Secured: the handle; else 0 */
    uint16_t cover;            /* the cover number; 0 where there is none */
    uint16_t upper;            /* the half that waits, uncovered; 0 where there is none */
    uint16_t slot;             /* Arbitrate: the slot counter, 0 to 7FFFh; else 0 */
};

/* What a call hands back. Padding is not set: compare fields, not bytes. */
struct tag_outcome {
    uint8_t answer;             /* 0 to 14 */
    struct tag_session session; /* the session from now on */
    size_t reply;               /* the reply's bits in the room, the first bit highest; 0: no reply */
    size_t stores;              /* the word stores made */
    size_t value;               /* tag_register: the register, 0 to 3; else 0 */
};

/* A section: offset in the image and count, both in words of 16 bits. */
struct tag_place {
    uint16_t at;
    uint16_t words;
};

/* What the image check hands back. Where the answer is not 0, all other fields are 0. */
struct tag_sheet {
    uint8_t answer; /* 0 to 3 */
    uint16_t block; /* the block size in words */
    struct tag_place status;
    struct tag_place reserved;
    struct tag_place epc;
    struct tag_place tid;
    struct tag_place user;
    struct tag_place perma;
    struct tag_place work;
};

/* The image check. Answers 0 to 3. The image is only read. */
struct tag_sheet tag_check(const uint8_t *image, size_t image_bytes);

/* Power-up, with power for `stores` word stores: finishes a pending change, stores the EPC's CRC-16, and gives the first session, Ready or
   Killed, with every inventoried flag A and SL deasserted. Answers 0, 1, 2, 3, 11; after any but 0 the session is Off. */
struct tag_outcome tag_power_up(uint8_t *image, size_t image_bytes, size_t stores);

/* A radio frame of `bits` bits, the first bit highest. The shortest has 4 (QueryRep); spare bits of the last byte mean nothing. `fresh` is a
   random word, new for each call: the slot is drawn from its low bits, and it is the number replied, the handle or the cover number. The reply
   goes to the room; the power lasts `stores` word stores. Answers 0 to 12 and 14. A Read of n words has a reply of 33 + 16 * n bits: 8,197
   bytes hold any reply. */
struct tag_outcome tag_frame(struct tag_session session, uint8_t *image, size_t image_bytes, size_t bits, const uint8_t *frame,
                             size_t frame_bytes, uint16_t fresh, uint8_t *room, size_t room_bytes, size_t stores);

/* Asks for the SPI port: granted unless it is held, or the state is Open or Secured. Answers 0, 5, 6. While it is held, frames are answered
   6. */
struct tag_outcome tag_ask(struct tag_session session);

/* Gives the port back. Answers 0, 5, 6. */
struct tag_outcome tag_release(struct tag_session session);

/* Reads the error register into `value`, and clears it. Answers 0, 5, 6. */
struct tag_outcome tag_register(struct tag_session session);

/* Reads `count` words of USER from word `at` on into the room, high byte first; in Killed zeros, which sets register bit 0. The port must be
   held. The image is only read. Answers 0, 1, 2, 3, 4, 5, 6, 13. */
struct tag_outcome tag_read(struct tag_session session, const uint8_t *image, size_t image_bytes, size_t at, size_t count, uint8_t *room,
                            size_t room_bytes);

/* Writes the words, two bytes each, high byte first, to USER from word `at` on, as one change, with power for `stores` word stores. Words that
   may not be written are left out, and set register bit 1: those of permalocked blocks, and all of them while there is an access password or
   USER's pwd bit is set. In Killed nothing is stored, and register bit 0 is set instead. The port must be held. Answers 0, 1, 2, 3, 5, 6, 11, 13. */
struct tag_outcome tag_write(struct tag_session session, uint8_t *image, size_t image_bytes, size_t at, const uint8_t *words,
                             size_t words_bytes, size_t stores);

/* A DEPOT'S HALF of the radio: the frames that a tag hears are made, and what it replies is read (RULES 12; docs/GATE.md has a talk step by
   step). It knows no image and no session. Its answers, the first that applies:
      0 done
      9 the command is beyond its limits: a kind that is none, a field of it too large or too small, or, of the three kinds that have a payload,
        one of another length than it needs
      4 making: the frame does not fit the room
      8 reading: under 16 bits, more bits than the bytes have, or a wrong CRC-16
     15 reading: no reply to this command has this length, this first bit and this handle
   A frame that was not made leaves the room as it was. A reply that was not read says nothing. */

/* depot_command.kind, each with the fields that it uses and their limits. Its other fields mean nothing, nor does a payload where none is
   named: hand over 0 bytes, at any pointer that is not null. A bank is 0 RESERVED, 1 EPC, 2 TID, 3 USER; a pointer is below 2,097,152. */
enum {
    DEPOT_QUERY_REP,      /* session 0 to 3 */
    DEPOT_ACK,            /* none */
    DEPOT_QUERY,          /* dr, trext 0 or 1; m 0 to 3; sel 0 to 3; session 0 to 3; target 0 (A) or 1 (B); q 0 to 15 */
    DEPOT_QUERY_ADJUST,   /* session 0 to 3; up_down 6 (Q one more), 0 (as it is) or 3 (one less) */
    DEPOT_SELECT,         /* target 0 to 4 (S0 to S3, SL); action 0 to 7; bank 1 to 3; pointer, of a bit; count, in bits, 0 to 255. Payload: the
                             mask, (count + 7) / 8 bytes; spare bits of the last mean nothing */
    DEPOT_NAK,            /* none */
    DEPOT_REQ_RN,         /* none */
    DEPOT_READ,           /* bank, pointer; count 0 to 255; 0: to the bank's end */
    DEPOT_WRITE,          /* bank, pointer; word */
    DEPOT_KILL,           /* word: a half of the kill password */
    DEPOT_LOCK,           /* mask, action: 0 to 3FFh */
    DEPOT_ACCESS,         /* word: a half of the access password */
    DEPOT_BLOCK_WRITE,    /* bank, pointer. Payload: 1 to 255 words, high byte first */
    DEPOT_BLOCK_ERASE,    /* bank, pointer; count 1 to 255 */
    DEPOT_READ_PERMALOCK, /* BlockPermalock as reading: bank, pointer; count, the range, 1 to 255; both in 16 blocks */
    DEPOT_PERMALOCK       /* BlockPermalock as locking: bank, pointer. Payload: 1 to 255 masks of 16 blocks, high byte first */
};

/* A command, but for the number that it carries and its payload. 60 bytes without padding. Name its fields and let C fill the others with 0:
   (struct depot_command){.kind = DEPOT_READ, .bank = 3, .pointer = 0, .count = 7}. All fields 0 is a QueryRep of S0. */
struct depot_command {
    uint32_t kind;    /* DEPOT_QUERY_REP .. */
    uint32_t bank;
    uint32_t pointer; /* of a word; Select's of a bit, BlockPermalock's of 16 blocks */
    uint32_t count;   /* words; Select's bits, BlockPermalock's range */
    uint32_t word;    /* 0 to FFFFh, as it is: making covers it */
    uint32_t mask;
    uint32_t action;
    uint32_t target;
    uint32_t session;
    uint32_t up_down;
    uint32_t dr;
    uint32_t m;
    uint32_t trext;
    uint32_t sel;
    uint32_t q;
};

/* What making hands back. 16 bytes without padding. */
struct depot_frame {
    size_t answer; /* 0, 9 or 4 */
    size_t bits;   /* the frame's bits in the room, the first bit highest; 0 where it was refused */
};

/* depot_reply.kind */
enum { DEPOT_NOTHING, DEPOT_ERROR, DEPOT_WORDS, DEPOT_NUMBER, DEPOT_DONE };

/* What reading hands back. 32 bytes without padding. Where the answer is not 0, all other fields are 0. */
struct depot_reply {
    size_t answer; /* 0, 9, 8 or 15 */
    size_t kind;   /* DEPOT_NOTHING .. */
    size_t value;  /* DEPOT_ERROR: the code; DEPOT_WORDS: how many; DEPOT_NUMBER: the number; else 0 */
    size_t at;     /* DEPOT_WORDS: the first bit of the first word, 1 where they come behind a bit and else 0 (examples/gate.c takes them out
                      with word_of); else 0 */
};

/* Makes the frame of a command into the room: `bits` of it from the first byte on, the last byte filled with 0 bits, the bytes behind it left.
   `number` is what the command carries: the number just replied in an ACK and in the first Req_RN, from then on the handle; Select, Query,
   QueryAdjust, QueryRep and NAK carry none. `cover` is the number that the latest Req_RN with the handle has brought; count it as used up by
   the next command. Write, Kill and Access cover their word with it, the others don't use it; with another number than that the tag uncovers
   another word, and a Write stores it. 521 bytes hold any frame. Answers 0, 9, 4. */
struct depot_frame depot_make(struct depot_command command, const uint8_t *payload, size_t payload_bytes, uint16_t number, uint16_t cover,
                              uint8_t *room, size_t room_bytes);

/* Reads `bits` bits as a tag's reply to a command, which carried `number` and this payload. Bits and bytes past them mean nothing. Both ranges
   are only read, and may overlap.
      Query, QueryAdjust, QueryRep                                            DEPOT_NUMBER: the tag's, for the ACK; these have no CRC-16
      ACK                                                                     DEPOT_WORDS: the PC and the EPC
      Req_RN                                                                  DEPOT_NUMBER: the handle, then a cover number
      Access                                                                  DEPOT_NUMBER: the handle
      Kill                                                                    the first half: DEPOT_NUMBER, the handle, or DEPOT_ERROR; the
                                                                              second: DEPOT_DONE
      Write, Lock, BlockWrite, BlockErase, locking BlockPermalock             DEPOT_DONE, or DEPOT_ERROR
      Read, reading BlockPermalock                                            DEPOT_WORDS, as many as were asked for, where a Read asked for 0
                                                                              from 1 to 4,096; or DEPOT_ERROR
      Select, NAK                                                             no reply: 8 where it is 8, else 15
   Answers 0, 9, 8, 15. */
struct depot_reply depot_read(struct depot_command command, const uint8_t *payload, size_t payload_bytes, uint16_t number, size_t bits,
                              const uint8_t *reply, size_t reply_bytes);

/* The layout that the library was compiled for: x86-64, in C11. */
_Static_assert(sizeof(size_t) == 8, "size_t");
_Static_assert(sizeof(struct tag_session) == 16 && _Alignof(struct tag_session) == 8, "tag_session");
_Static_assert(offsetof(struct tag_session, state) == 0 && offsetof(struct tag_session, held) == 1, "state, held");
_Static_assert(offsetof(struct tag_session, reg) == 2 && offsetof(struct tag_session, covered) == 3, "reg, covered");
_Static_assert(offsetof(struct tag_session, half) == 4 && offsetof(struct tag_session, round) == 5, "half, round");
_Static_assert(offsetof(struct tag_session, q) == 6 && offsetof(struct tag_session, flags) == 7, "q, flags");
_Static_assert(offsetof(struct tag_session, number) == 8 && offsetof(struct tag_session, cover) == 10, "number, cover");
_Static_assert(offsetof(struct tag_session, upper) == 12 && offsetof(struct tag_session, slot) == 14, "upper, slot");
_Static_assert(sizeof(struct tag_outcome) == 48 && _Alignof(struct tag_outcome) == 8, "tag_outcome");
_Static_assert(offsetof(struct tag_outcome, answer) == 0 && offsetof(struct tag_outcome, session) == 8, "answer, session");
_Static_assert(offsetof(struct tag_outcome, reply) == 24 && offsetof(struct tag_outcome, stores) == 32, "reply, stores");
_Static_assert(offsetof(struct tag_outcome, value) == 40, "value");
_Static_assert(sizeof(struct tag_place) == 4 && offsetof(struct tag_place, at) == 0 && offsetof(struct tag_place, words) == 2, "tag_place");
_Static_assert(sizeof(struct tag_sheet) == 32 && _Alignof(struct tag_sheet) == 2, "tag_sheet");
_Static_assert(offsetof(struct tag_sheet, answer) == 0 && offsetof(struct tag_sheet, block) == 2, "answer, block");
_Static_assert(offsetof(struct tag_sheet, status) == 4 && offsetof(struct tag_sheet, reserved) == 8, "status, reserved");
_Static_assert(offsetof(struct tag_sheet, epc) == 12 && offsetof(struct tag_sheet, tid) == 16, "epc, tid");
_Static_assert(offsetof(struct tag_sheet, user) == 20 && offsetof(struct tag_sheet, perma) == 24, "user, perma");
_Static_assert(offsetof(struct tag_sheet, work) == 28, "work");
_Static_assert(sizeof(struct depot_command) == 60 && _Alignof(struct depot_command) == 4, "depot_command");
_Static_assert(offsetof(struct depot_command, kind) == 0 && offsetof(struct depot_command, bank) == 4, "kind, bank");
_Static_assert(offsetof(struct depot_command, pointer) == 8 && offsetof(struct depot_command, count) == 12, "pointer, count");
_Static_assert(offsetof(struct depot_command, word) == 16 && offsetof(struct depot_command, mask) == 20, "word, mask");
_Static_assert(offsetof(struct depot_command, action) == 24 && offsetof(struct depot_command, target) == 28, "action, target");
_Static_assert(offsetof(struct depot_command, session) == 32 && offsetof(struct depot_command, up_down) == 36, "session, up_down");
_Static_assert(offsetof(struct depot_command, dr) == 40 && offsetof(struct depot_command, m) == 44, "dr, m");
_Static_assert(offsetof(struct depot_command, trext) == 48 && offsetof(struct depot_command, sel) == 52, "trext, sel");
_Static_assert(offsetof(struct depot_command, q) == 56, "q");
_Static_assert(DEPOT_QUERY_REP == 0 && DEPOT_PERMALOCK == 15 && DEPOT_NOTHING == 0 && DEPOT_DONE == 4, "kinds");
_Static_assert(sizeof(struct depot_frame) == 16 && _Alignof(struct depot_frame) == 8, "depot_frame");
_Static_assert(offsetof(struct depot_frame, answer) == 0 && offsetof(struct depot_frame, bits) == 8, "answer, bits");
_Static_assert(sizeof(struct depot_reply) == 32 && _Alignof(struct depot_reply) == 8, "depot_reply");
_Static_assert(offsetof(struct depot_reply, answer) == 0 && offsetof(struct depot_reply, kind) == 8, "answer, kind");
_Static_assert(offsetof(struct depot_reply, value) == 16 && offsetof(struct depot_reply, at) == 24, "value, at");

#endif
