/*
 * Sealing and opening of texts, as the card does it.
 *
 * A text is a direction, a transaction number and a body of 2 to 261 bytes. Under a suite and 40 key bytes each text has
 * one sealed string, of at most 288 bytes; a string opens exactly where it is the sealed string of some text.
 *
 * Both calls are proved to do what is written here, for every input. They keep no state, allocate nothing and may be
 * called from several threads at once.
 *
 * What the caller must see to: each pointer is not null and is valid for the length that follows it, also where that is
 * 0, and `out` overlaps none of the other arguments.
 */
#ifndef CARD_SEALER_H
#define CARD_SEALER_H

#include <stddef.h>
#include <stdint.h>

#ifdef __cplusplus
extern "C" {
#endif

/* Ciphers. Key bytes 1 to 24 serve the cipher; two-key triple DES and AES-128 use the first 16 of them. */
#define CARD_CIPHER_TWO_KEY_TRIPLE_DES 0x01
#define CARD_CIPHER_THREE_KEY_TRIPLE_DES 0x02
#define CARD_CIPHER_AES_128 0x04

/* Integrity mechanisms. Key bytes 25 to 40 serve CMAC, which is over AES-128; CRC32 has no key. */
#define CARD_MECHANISM_CRC32 0x01
#define CARD_MECHANISM_CMAC 0x04

/* Directions. */
#define CARD_DIRECTION_COMMAND 0x00
#define CARD_DIRECTION_REPLY 0x01

/* Lengths in bytes. */
#define CARD_KEY_BYTES 40
#define CARD_BODY_LEAST 2
#define CARD_BODY_MOST 261
#define CARD_ROOM 288    /* of `out`, at least */
#define CARD_HEAD 9      /* direction and number, before the body of an opened text */

/* Refusals. Every length that a call answers is above them. */
#define CARD_UNFIT 7     /* suite or direction unknown, keys not 40 bytes, body not 2 to 261 bytes, or room under 288 */
#define CARD_SHUT 8      /* the string does not open; all causes of CARD_UNFIT come first */

/*
 * Seals a text. Writes the sealed string at the start of `out`, leaves the bytes behind it, and answers its length.
 * Where it answers CARD_UNFIT it has written nothing.
 */
size_t card_seal(uint8_t cipher, uint8_t mechanism, const uint8_t *keys, size_t keys_len, uint8_t direction, uint64_t number,
                 const uint8_t *body, size_t body_len, uint8_t *out, size_t out_len);

/*
 * Opens a sealed string of any length. Writes one byte of direction, eight of number (highest first) and the body at the
 * start of `out`, leaves the bytes behind them, and answers 9 and the body's length together.
 * Where it answers CARD_UNFIT or CARD_SHUT it has written nothing.
 */
size_t card_open(uint8_t cipher, uint8_t mechanism, const uint8_t *keys, size_t keys_len, const uint8_t *string, size_t string_len,
                 uint8_t *out, size_t out_len);

#ifdef __cplusplus
}
#endif

#endif
