/* The vectors of the qualification kit, in vectors.c. */
#ifndef KIT_VECTORS_H
#define KIT_VECTORS_H

#include <stdint.h>

extern const uint32_t kit_count;    /* how many vectors there are */
extern const uint32_t kit_length;   /* how many bytes they have */
extern const uint64_t kit_sum;      /* a sum of these bytes */
extern const uint8_t kit_vectors[];

#endif
