#ifndef AGREE_H
#define AGREE_H
#include "rival.h"

/* a frame that is being made */
struct frame {
    uint8_t bytes[700];
    size_t n;
};
void frame_start(struct frame *);
void frame_bits(struct frame *, unsigned, unsigned);
void frame_pointer(struct frame *, unsigned, unsigned);
void frame_end(struct frame *);  /* its CRC-16 */
void frame_end5(struct frame *); /* a Query's CRC-5 */
size_t image_make(uint8_t *, unsigned block, unsigned reserved, unsigned epc, unsigned tid, unsigned user, unsigned pairs);

/* so many random calls; how many differ */
int agree(unsigned calls);
#endif
