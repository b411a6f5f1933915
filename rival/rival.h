/* A tag in plain C, written for speed from the rules alone: a rival for the clock and a third opinion on the answers. It proves nothing. */
#ifndef RIVAL_H
#define RIVAL_H
#include "swellbinnacle.h"

/* what a call left beside its answer and the session */
struct rival_out {
    size_t reply, stores;
    unsigned value;
};

struct rival_layout {
    unsigned block, blocks, status, reserved, reserved_words, epc, epc_words, tid, tid_words, user, user_words, perma, perma_words, work, pairs;
};

/* The same tag twice: its CRC-16 by a byte table, and by steps of 64 bits. Each answers by number; the session is changed in place. */
#define RIVAL(way)                                                                                                                        \
    int way##_check(const uint8_t *, size_t, struct rival_layout *);                                                                       \
    int way##_power_up(struct tag_session *, uint8_t *, size_t, size_t, struct rival_out *);                                                \
    int way##_frame(struct tag_session *, uint8_t *, size_t, const uint8_t *, size_t, size_t, unsigned, uint8_t *, size_t, size_t,          \
                    struct rival_out *);                                                                                                   \
    int way##_ask(struct tag_session *);                                                                                                   \
    int way##_release(struct tag_session *);                                                                                               \
    int way##_register(struct tag_session *, struct rival_out *);                                                                          \
    int way##_read(struct tag_session *, const uint8_t *, size_t, size_t, size_t, uint8_t *, size_t, struct rival_out *);                   \
    int way##_write(struct tag_session *, uint8_t *, size_t, size_t, const uint8_t *, size_t, size_t, struct rival_out *);

RIVAL(table)
RIVAL(wide)
void table_start(void);

#endif
