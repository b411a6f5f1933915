/* A tag's firmware around the library: the image in FRAM, one session, and a function for each thing that happens. main plays a gate that
   finds the tag and writes USER word 3 while the power fails, and a reader that powers up and fetches the word. */
#include <stdio.h>
#include "swellbinnacle.h"

#define IMAGE_BYTES 156
#define PLENTY ((size_t)1 << 20) /* on a tag: the word stores that the charge lasts, and no more */

static uint8_t image[IMAGE_BYTES]; /* on a tag: the FRAM */
static uint8_t room[8197];         /* holds any reply */
static struct tag_session session; /* all 0: Off */

/* The field has come up, and the power lasts `stores` word stores. */
static int on_power(size_t stores) {
    struct tag_outcome o = tag_power_up(image, IMAGE_BYTES, stores);
    session = o.session;
    return o.answer;
}

/* A frame was demodulated. Hands back the bits to send from `room`; 0: be silent. */
static size_t on_frame(const uint8_t *frame, size_t bits, uint16_t random, size_t stores) {
    struct tag_outcome o = tag_frame(session, image, IMAGE_BYTES, bits, frame, (bits + 7) / 8, random, room, sizeof room, stores);
    session = o.session;
    printf("frame %02x: answer %d, %d bits, %d stores, state %d\n", bits ? frame[0] : 0, o.answer, (int)o.reply, (int)o.stores, session.state);
    return o.reply;
}

/* The layout engine wants words of USER. */
static int on_fetch(size_t at, size_t count, uint8_t *words, size_t bytes) {
    struct tag_outcome o = tag_ask(session);
    if (o.answer == 0) {
        o = tag_read(o.session, image, IMAGE_BYTES, at, count, words, bytes);
        int answer = o.answer;
        session = tag_release(o.session).session;
        return answer;
    }
    return o.answer;
}

/* 16 words of USER in blocks of 4, a kill password, no access password. */
static void fill_image(void) {
    static const uint16_t words[] = {7,  4,  16, 2,      18,     4, 22, 4,      26,     2,      28,     16,     44,    1, 45, 33, 0, 0, 0x4B49,
                                     0x4C4C, 0, 0, 0x9297, 0x1000, 0x3034, 0x0257, 0xE200, 0x6001, 3, 3, 6, 10};
    for (size_t i = 0; i < sizeof words / sizeof words[0]; i++) {
        image[2 * i] = (uint8_t)(words[i] >> 8);
        image[2 * i + 1] = (uint8_t)words[i];
    }
}

int main(void) {
    static const uint8_t query[] = {0x80, 0x00, 0x40};                                     /* Query: session S0, target A, Q = 0 */
    static const uint8_t ack[] = {0x6F, 0xBB, 0xC0};                                       /* ACK with the number replied */
    static const uint8_t number[] = {0xC1, 0xBE, 0xEF, 0x13, 0x67};                        /* Req_RN with the number replied */
    static const uint8_t handle[] = {0xC1, 0x12, 0x34, 0x31, 0x62};                        /* Req_RN with the handle */
    static const uint8_t write[] = {0xC3, 0xC0, 0xFC, 0x65, 0xC4, 0x8D, 0x0C, 0xDE, 0x80}; /* Write ABCDh to USER 3, covered by 5A5Ah */
    uint8_t words[2];
    fill_image();
    printf("check: answer %d\n", tag_check(image, IMAGE_BYTES).answer);
    printf("power-up: answer %d\n", on_power(PLENTY));
    on_frame(query, 22, 0xBEEF, PLENTY); /* the number replied is the random word */
    on_frame(ack, 18, 0x0000, PLENTY);   /* the reply is PC, EPC and CRC-16 */
    on_frame(number, 40, 0x1234, PLENTY);
    on_frame(handle, 40, 0x5A5A, PLENTY);
    on_frame(write, 66, 0x0000, 3); /* the power fails after three of five stores */
    printf("power-up: answer %d\n", on_power(PLENTY));
    int answer = on_fetch(3, 1, words, sizeof words);
    printf("fetch: answer %d, word %02x%02x\n", answer, words[0], words[1]);
    return 0;
}
