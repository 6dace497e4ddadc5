/* The same sealing, written over OpenSSL's libcrypto: what the test compares with. */
#ifndef REFERENCE_H
#define REFERENCE_H

#include <stddef.h>
#include <stdint.h>

/* A frame before it is encrypted: every field is free, so that a test can lay out what no text has. */
struct frame {
    uint8_t direction;
    uint64_t number;
    size_t stated;          /* the body's length as the frame states it */
    const uint8_t *body;
    size_t body_len;
    size_t more_blocks;     /* blocks of fill beyond the fewest */
    uint8_t fill;           /* the last byte of the fill, if there is any */
    uint8_t check_change;   /* joined into the check's last byte */
};

#define REFERENCE_ROOM 512

size_t reference_frame(uint8_t cipher, uint8_t mechanism, const uint8_t *keys, const struct frame *frame, uint8_t *out);
size_t reference_seal(uint8_t cipher, uint8_t mechanism, const uint8_t *keys, uint8_t direction, uint64_t number, const uint8_t *body, size_t body_len, uint8_t *out);

/* Direction, number and body, and their length; 0 where the string does not open. */
size_t reference_open(uint8_t cipher, uint8_t mechanism, const uint8_t *keys, const uint8_t *string, size_t len, uint8_t *out);

#endif
