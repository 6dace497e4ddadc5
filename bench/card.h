// Our calls, as the static libraries export them. A slice is a pointer and a length.
#ifndef CARD_H
#define CARD_H
#include <stddef.h>
#include <stdint.h>

// libexports.a. Each answers 0, or 1 where a length does not fit: then nothing is written.
uint32_t card_aes_cbc_encrypt(const uint8_t *key, size_t key_len, uint8_t *buf, size_t buf_len);
uint32_t card_aes_cbc_decrypt(const uint8_t *key, size_t key_len, uint8_t *buf, size_t buf_len);
uint32_t card_triple_cbc_encrypt(const uint8_t *key, size_t key_len, uint8_t *buf, size_t buf_len);
uint32_t card_triple_cbc_decrypt(const uint8_t *key, size_t key_len, uint8_t *buf, size_t buf_len);
uint32_t card_cmac(const uint8_t *key, size_t key_len, const uint8_t *message, size_t message_len, uint8_t *out, size_t out_len);
uint32_t card_crc32(const uint8_t *message, size_t message_len, uint8_t *out, size_t out_len);
uint32_t card_sha256(const uint8_t *message, size_t message_len, uint8_t *out, size_t out_len);
uint32_t card_hmac(const uint8_t *key, size_t key_len, const uint8_t *message, size_t message_len, uint8_t *out, size_t out_len);

// libsealer_c.a
#include "../c/card_sealer.h"
#endif
