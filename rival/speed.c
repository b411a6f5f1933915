/* The library's time and each rival's, call by call, on a small and on the largest image: the best of many runs that take turns, in one
   process. tests/times.py makes ratios of them. */
#include <stdio.h>
#include <string.h>
#include <time.h>
#include "agree.h"

#define TURNS 1001
#define EPC_WORDS 6

/* what a call is handed; here[0] is on the small image or that with blocks of one word, here[1] on the largest */
static struct given {
    _Alignas(64) uint8_t image[9604];
    size_t bytes;
    struct frame frame;
    struct tag_session session;
} here[2], *in = here;
static uint8_t room[8300], words[128];
static int locked; /* the last block of USER is permalocked */
static volatile unsigned sink;

static double now(void) {
    struct timespec t;
    clock_gettime(CLOCK_MONOTONIC, &t);
    return (double)t.tv_sec * 1e9 + (double)t.tv_nsec;
}

/* each runs its call n times */
typedef void (*runner)(unsigned n);

static void library_check(unsigned n) {
    struct given *g = in;
    while (n--) sink += tag_check(g->image, g->bytes).work.at;
}
static void library_frame(unsigned n) {
    struct given *g = in;
    while (n--)
        sink += (unsigned)tag_frame(g->session, g->image, g->bytes, g->frame.n, g->frame.bytes, (g->frame.n + 7) / 8, 0x1234, room,
                                    sizeof room, 9999)
                    .reply;
}
static void library_read(unsigned n) {
    struct given *g = in;
    while (n--) sink += (unsigned)tag_read(g->session, g->image, g->bytes, 0, 64, room, sizeof room).reply;
}
static void library_write(unsigned n) {
    struct given *g = in;
    while (n--) sink += (unsigned)tag_write(g->session, g->image, g->bytes, 0, words, 128, 9999).stores;
}

#define RUNNERS(way)                                                                                                                     \
    static void way##_checks(unsigned n) {                                                                                               \
        struct given *g = in;                                                                                                            \
        struct rival_layout y;                                                                                                           \
        while (n--) sink += (unsigned)way##_check(g->image, g->bytes, &y) + y.work;                                                      \
    }                                                                                                                                    \
    static void way##_frames(unsigned n) {                                                                                               \
        struct given *g = in;                                                                                                            \
        struct rival_out out;                                                                                                            \
        while (n--) {                                                                                                                    \
            struct tag_session s = g->session;                                                                                           \
            way##_frame(&s, g->image, g->bytes, g->frame.bytes, (g->frame.n + 7) / 8, g->frame.n, 0x1234, room, sizeof room, 9999, &out); \
            sink += (unsigned)out.reply;                                                                                                 \
        }                                                                                                                                \
    }                                                                                                                                    \
    static void way##_reads(unsigned n) {                                                                                                \
        struct given *g = in;                                                                                                            \
        struct rival_out out;                                                                                                            \
        while (n--) {                                                                                                                    \
            struct tag_session s = g->session;                                                                                           \
            way##_read(&s, g->image, g->bytes, 0, 64, room, sizeof room, &out);                                                          \
            sink += (unsigned)out.reply;                                                                                                 \
        }                                                                                                                                \
    }                                                                                                                                    \
    static void way##_writes(unsigned n) {                                                                                               \
        struct given *g = in;                                                                                                            \
        struct rival_out out;                                                                                                            \
        while (n--) {                                                                                                                    \
            struct tag_session s = g->session;                                                                                           \
            way##_write(&s, g->image, g->bytes, 0, words, 128, 9999, &out);                                                              \
            sink += (unsigned)out.stores;                                                                                                \
        }                                                                                                                                \
    }
RUNNERS(table)
RUNNERS(wide)

static double took(runner r, unsigned n) {
    double t = now();
    r(n);
    return (now() - t) / n;
}

/* the best time of each of the three on each image from `first` on, in turns */
static void race(const runner r[3], int first, double best[2][3]) {
    unsigned n = 1;
    in = &here[1];
    while (took(r[0], n) * n < 2e5) n *= 2;
    for (int i = 0; i < 6; i++) best[i / 3][i % 3] = 1e30;
    for (int turn = 0; turn < TURNS; turn++)
        for (int i = 3 * first; i < 6; i++) {
            in = &here[i / 3];
            double t = took(r[i % 3], n);
            if (t < best[i / 3][i % 3]) best[i / 3][i % 3] = t;
        }
}

static void put(size_t i, unsigned v) {
    in->image[2 * i] = (uint8_t)(v >> 8);
    in->image[2 * i + 1] = (uint8_t)v;
}
static unsigned word(size_t i) { return in->image[2 * i] * 256u + in->image[2 * i + 1]; }

static unsigned epc_word(unsigned i) { return 0x3034u + 0x1F3Du * i; }

static void lock_block(unsigned b) { put(word(12) + b / 16, word(word(12) + b / 16) | 0x8000u >> b % 16); }

/* small: 64 words of USER in 4 blocks; single: 256 words in as many blocks; largest: there is none larger. All have an EPC of 6 words and 255
   pairs in WORK. */
enum { SMALL, SINGLE, LARGEST };
static const char *const images[] = {"small", "256, B = 1", "largest"};

static void fill(int image) {
    static const unsigned sizes[][5] = {{16, 4, 8, 2, 64}, {1, 4, 8, 2, 256}, {16, 64, 33, 64, 4096}};
    const unsigned *z = sizes[image];
    in = &here[image == LARGEST];
    in->bytes = image_make(in->image, z[0], z[1], z[2], z[3], z[4], 255);
    unsigned user = word(10), n = word(11);
    put(word(6) + 1, EPC_WORDS << 11);
    for (unsigned i = 0; i < EPC_WORDS; i++) put(word(6) + 2 + i, epc_word(i));
    for (unsigned i = 0; i < n; i++) put(user + i, 0x9E37u * i);
    if (locked) lock_block((n - 1) / word(1));
}

static void secured(unsigned code) {
    in->session = (struct tag_session){.state = TAG_SECURED, .covered = 1, .number = 0x1234, .cover = 0x5A5A};
    frame_start(&in->frame);
    frame_bits(&in->frame, code, 8);
}

static void done(void) {
    frame_bits(&in->frame, 0x1234, 16);
    frame_end(&in->frame);
}

static const runner checks[3] = {library_check, table_checks, wide_checks}, frames[3] = {library_frame, table_frames, wide_frames},
                    reads[3] = {library_read, table_reads, wide_reads}, writes[3] = {library_write, table_writes, wide_writes};

static const struct call {
    const char *name;
    const runner *run;
} calls[] = {{"check, nothing pending", checks}, {"check, 255 pending", checks}, {"Req_RN", frames},         {"Write", frames},
             {"BlockWrite, 16 words", frames},   {"Read, 8 words", frames},      {"Read, 4,096 words", frames}, {"SPI read, 64 words", reads},
             {"SPI write, 64 words", writes},    {"Query", frames},              {"QueryRep, no reply", frames}, {"ACK, L = 6", frames},
             {"Select, 96 bits", frames},        {"BlockWrite, 255 words", frames}, {"BlockWrite, 255 words, 04h", frames}};

enum {
    PENDING = 1, REQ_RN, WRITE, BLOCK_WRITE, READ, READ_ALL, SPI_READ, SPI_WRITE, QUERY, QUERY_REP, ACK, SELECT, BLOCK_MOST, BLOCK_LOCKED,
    CALLS = sizeof calls / sizeof calls[0]
};

static int image_of(int call, int large) { return large ? LARGEST : call >= BLOCK_MOST ? SINGLE : SMALL; }

/* session and frame of an inventory's call */
static void inventory(int call) {
    static const uint8_t states[] = {TAG_READY, TAG_ARBITRATE, TAG_REPLY, TAG_READY};
    in->session = (struct tag_session){.state = states[call - QUERY]};
    frame_start(&in->frame);
    switch (call) {
    case QUERY: /* S2 and Q = 2: the fresh word 1234h has slot 0 */
        frame_bits(&in->frame, 0x80, 8);
        frame_bits(&in->frame, 0x21, 8);
        frame_bits(&in->frame, 0, 1);
        frame_end5(&in->frame);
        break;
    case QUERY_REP:
        in->session.slot = 5;
        in->session.q = 4;
        in->session.round = 2;
        frame_bits(&in->frame, 2, 4);
        break;
    case ACK:
        in->session.number = 0x1234;
        frame_bits(&in->frame, 1, 2);
        frame_bits(&in->frame, 0x1234, 16);
        break;
    case SELECT: /* SL, action 000, the EPC from bit 32 on */
        frame_bits(&in->frame, 0xA81, 12);
        frame_pointer(&in->frame, 32, 1);
        frame_bits(&in->frame, 16 * EPC_WORDS, 8);
        for (unsigned i = 0; i < EPC_WORDS; i++) frame_bits(&in->frame, epc_word(i), 16);
        frame_bits(&in->frame, 0, 1);
        frame_end(&in->frame);
    }
}

/* session and frame of a command to one tag */
static void command(int call) {
    static const uint8_t codes[CALLS] = {[REQ_RN] = 0xC1,      [WRITE] = 0xC3,      [BLOCK_WRITE] = 0xC7, [READ] = 0xC2,
                                         [READ_ALL] = 0xC2,    [BLOCK_MOST] = 0xC7, [BLOCK_LOCKED] = 0xC7};
    static const uint8_t counts[CALLS] = {[BLOCK_WRITE] = 16, [READ] = 8, [BLOCK_MOST] = 255, [BLOCK_LOCKED] = 255};
    secured(codes[call]);
    if (call > REQ_RN) {
        frame_bits(&in->frame, 3, 2);
        frame_pointer(&in->frame, call == READ_ALL || call >= BLOCK_MOST ? 0 : 3, 1);
    }
    if (call == WRITE) frame_bits(&in->frame, 0xABCD ^ 0x5A5A, 16);
    if (call > WRITE) frame_bits(&in->frame, counts[call], 8);
    for (unsigned i = 0; codes[call] == 0xC7 && i < counts[call]; i++) frame_bits(&in->frame, 0x1357u * i & 0xFFFF, 16);
    done();
    if (call == BLOCK_LOCKED) lock_block(254 / word(1));
}

/* image, session and frame of a call */
static void prepare(int call, int large) {
    static const struct tag_session held = {.state = TAG_READY, .held = 1};
    fill(image_of(call, large));
    if (call == PENDING) {
        put(word(14), 255);
        for (unsigned j = 0; j < 255; j++) put(word(14) + 1 + 2 * j, word(10) + j % 64);
    }
    in->session = held;
    memset(words, 0x5C, sizeof words);
    if (calls[call].run != frames) return;
    if (call >= QUERY && call <= SELECT)
        inventory(call);
    else
        command(call);
}

/* the library's answer to the call that is prepared; only a call with its own answer is worth a race: 0, or 10 with the code 04h */
static int answer(int call) {
    if (calls[call].run == checks) return tag_check(in->image, in->bytes).answer;
    if (calls[call].run == reads) return tag_read(in->session, in->image, in->bytes, 0, 64, room, sizeof room).answer;
    if (calls[call].run == writes) return tag_write(in->session, in->image, in->bytes, 0, words, 128, 9999).answer;
    return tag_frame(in->session, in->image, in->bytes, in->frame.n, in->frame.bytes, (in->frame.n + 7) / 8, 0x1234, room, sizeof room, 9999).answer;
}

/* a call on the small and on the largest image, or on the largest alone */
static int prepare_both(int call) {
    for (int large = call == READ_ALL; large < 2; large++) {
        prepare(call, large);
        int a = answer(call);
        if (call == BLOCK_LOCKED ? a == 10 && room[0] == (0x80 | 0x04 >> 1) : !a) continue;
        printf("speed: %s is answered %d\n", calls[call].name, a);
        return 0;
    }
    return 1;
}

/* a line for each call and image: the best time of the library and of both rivals */
static int times(void) {
    double best[2][3];
    for (int i = 0; i < CALLS; i++) {
        if (!prepare_both(i)) return 1;
        race(calls[i].run, i == READ_ALL, best);
        for (int large = i == READ_ALL; large < 2; large++)
            printf("%s|%s|%f|%f|%f\n", calls[i].name, images[image_of(i, large)], best[large][0], best[large][1], best[large][2]);
    }
    return 0;
}

/* between these two a call's instructions are counted */
__attribute__((noinline)) static void counted_from(void) { __asm__ volatile("nop"); }
__attribute__((noinline)) static void counted_to(void) { __asm__ volatile("nop"); }

/* the number of an argument, below n; or n */
static int number(const char *word, int n) {
    int v = 0;
    do {
        if (*word < '0' || *word > '9') return n;
        v = 10 * v + (*word - '0');
    } while (v < n && *++word);
    return v < n ? v : n;
}

/* one call on one image in one way, between the marks */
static int counted(int call, int large, int way) {
    prepare(call, large);
    calls[call].run[way](1);
    printf("%lx %lx %s|%s\n", (unsigned long)counted_from, (unsigned long)counted_to, calls[call].name, images[image_of(call, large)]);
    counted_from();
    calls[call].run[way](1);
    counted_to();
    return 0;
}

int main(int argc, char **argv) {
    table_start();
    if (argc == 2 && !strcmp(argv[1], "agree")) return agree(30000) != 0;
    if (argc == 2 && !strcmp(argv[1], "more")) return agree(300000) != 0;
    locked = argc == 2 && !strcmp(argv[1], "locked");
    if (locked || (argc == 2 && !strcmp(argv[1], "times"))) return times();
    if (argc == 4 && number(argv[1], CALLS) < CALLS && number(argv[2], 2) < 2 && number(argv[3], 3) < 3)
        return counted(number(argv[1], CALLS), number(argv[2], 2), number(argv[3], 3));
    printf("speed agree: random calls\nspeed more: ten times as many\nspeed times: best times, library and rivals\n"
           "speed locked: the same with USER's last block permalocked\n"
           "speed CALL IMAGE WAY: one call, for its instructions\n");
    return 2;
}
