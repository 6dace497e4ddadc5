// The same sealing in C, over BearSSL with its small tables and over libtomcrypt: direction, number, length and body, the check
// over these, zeros up to whole blocks, all of it chained from a block of zeros.
#include "work.h"
#include <bearssl.h>
#include <stdio.h>
#include <stdlib.h>
#include <string.h>
#include <tomcrypt.h>

enum { HEAD = 11, LARGEST = 288 };

// A cipher and a check, each under its own key bytes.
struct suite {
  size_t block, check_len;
  void (*encrypt)(const uint8_t *key, uint8_t *buf, size_t n);
  void (*decrypt)(const uint8_t *key, uint8_t *buf, size_t n);
  void (*check)(const uint8_t *key, const uint8_t *message, size_t n, uint8_t *check);
};

static void bear_aes_encrypt(const uint8_t *k, uint8_t *buf, size_t n) {
  br_aes_small_cbcenc_keys c;
  uint8_t iv[16] = {0};
  br_aes_small_cbcenc_init(&c, k, 16);
  br_aes_small_cbcenc_run(&c, iv, buf, n);
}

static void bear_aes_decrypt(const uint8_t *k, uint8_t *buf, size_t n) {
  br_aes_small_cbcdec_keys c;
  uint8_t iv[16] = {0};
  br_aes_small_cbcdec_init(&c, k, 16);
  br_aes_small_cbcdec_run(&c, iv, buf, n);
}

static void bear_des_encrypt(const uint8_t *k, uint8_t *buf, size_t n) {
  br_des_tab_cbcenc_keys c;
  uint8_t iv[8] = {0};
  br_des_tab_cbcenc_init(&c, k, 24);
  br_des_tab_cbcenc_run(&c, iv, buf, n);
}

static void bear_des_decrypt(const uint8_t *k, uint8_t *buf, size_t n) {
  br_des_tab_cbcdec_keys c;
  uint8_t iv[8] = {0};
  br_des_tab_cbcdec_init(&c, k, 24);
  br_des_tab_cbcdec_run(&c, iv, buf, n);
}

static void doubled(uint8_t *b) {
  uint8_t carry = -(b[0] >> 7) & 0x87;
  for (int i = 0; i < 15; i++) b[i] = b[i] << 1 | b[i + 1] >> 7;
  b[15] = b[15] << 1 ^ carry;
}

// BearSSL has CBC-MAC; CMAC masks the last block of it.
static void bear_cmac(const uint8_t *k, const uint8_t *message, size_t n, uint8_t *check) {
  static const uint8_t zeros[16];
  br_aes_small_ctrcbc_keys c;
  uint8_t last[16] = {0};
  size_t whole = n == 0 ? 0 : (n - 1) / 16 * 16, rest = n - whole;
  br_aes_small_ctrcbc_init(&c, k, 16);
  br_aes_small_ctrcbc_mac(&c, last, zeros, 16);
  doubled(last);
  if (rest < 16) {
    doubled(last);
    last[rest] ^= 0x80;
  }
  for (size_t i = 0; i < rest; i++) last[i] ^= message[whole + i];
  memset(check, 0, 16);
  br_aes_small_ctrcbc_mac(&c, check, message, whole);
  br_aes_small_ctrcbc_mac(&c, check, last, 16);
}

// BearSSL has no CRC: one by a table of 256 words.
static void table_crc32(const uint8_t *k, const uint8_t *message, size_t n, uint8_t *check) {
  static uint32_t table[256];
  uint32_t c = 0xffffffff;
  (void)k;
  if (table[1] == 0) {
    for (uint32_t i = 0; i < 256; i++) {
      uint32_t x = i;
      for (int bit = 0; bit < 8; bit++) x = x >> 1 ^ (-(x & 1) & 0xedb88320);
      table[i] = x;
    }
  }
  for (size_t i = 0; i < n; i++) c = c >> 8 ^ table[(c ^ message[i]) & 0xff];
  c = ~c;
  for (int i = 0; i < 4; i++) check[i] = c >> (24 - 8 * i);
}

static void tom_cbc(const char *name, int encrypting, const uint8_t *k, int key_len, uint8_t *buf, size_t n) {
  static const uint8_t iv[16] = {0};
  symmetric_CBC c;
  cbc_start(find_cipher(name), iv, k, key_len, 0, &c);
  if (encrypting) cbc_encrypt(buf, buf, n, &c);
  else cbc_decrypt(buf, buf, n, &c);
  cbc_done(&c);
}

static void tom_aes_chain(const uint8_t *k, uint8_t *buf, size_t n) { tom_cbc("aes", 1, k, 16, buf, n); }
static void tom_aes_unchain(const uint8_t *k, uint8_t *buf, size_t n) { tom_cbc("aes", 0, k, 16, buf, n); }
static void tom_des_chain(const uint8_t *k, uint8_t *buf, size_t n) { tom_cbc("3des", 1, k, 24, buf, n); }
static void tom_des_unchain(const uint8_t *k, uint8_t *buf, size_t n) { tom_cbc("3des", 0, k, 24, buf, n); }

static void tom_cmac(const uint8_t *k, const uint8_t *message, size_t n, uint8_t *check) {
  unsigned long len = 16;
  omac_memory(find_cipher("aes"), k, 16, message, n, check, &len);
}

static void tom_crc(const uint8_t *k, const uint8_t *message, size_t n, uint8_t *check) {
  crc32_state s;
  (void)k;
  crc32_init(&s);
  crc32_update(&s, message, n);
  crc32_finish(&s, check, 4);
}

static const struct suite bear_aes = {16, 16, bear_aes_encrypt, bear_aes_decrypt, bear_cmac};
static const struct suite bear_triple = {8, 4, bear_des_encrypt, bear_des_decrypt, table_crc32};
static const struct suite tom_aes = {16, 16, tom_aes_chain, tom_aes_unchain, tom_cmac};
static const struct suite tom_triple = {8, 4, tom_des_chain, tom_des_unchain, tom_crc};

static size_t whole_blocks(size_t block, size_t n) { return (n + block - 1) / block * block; }

static size_t seal(const struct suite *s, const uint8_t *keys, uint8_t direction, uint64_t number, const uint8_t *body, size_t n, uint8_t *to) {
  size_t end = HEAD + n, len = whole_blocks(s->block, end + s->check_len);
  to[0] = direction;
  for (int i = 0; i < 8; i++) to[1 + i] = number >> (56 - 8 * i);
  to[9] = n >> 8;
  to[10] = n;
  memcpy(to + HEAD, body, n);
  s->check(keys + 24, to, end, to + end);
  memset(to + end + s->check_len, 0, len - end - s->check_len);
  s->encrypt(keys, to, len);
  return len;
}

// Opens in a copy of its own, and writes direction, number and body.
static size_t unseal(const struct suite *s, const uint8_t *keys, const uint8_t *string, size_t len, uint8_t *to) {
  uint8_t area[LARGEST], check[16], wrong = 0;
  if (len > LARGEST || len < HEAD || len % s->block != 0) return 0;
  memcpy(area, string, len);
  s->decrypt(keys, area, len);
  size_t n = area[9] << 8 | area[10], end = HEAD + n;
  if (area[0] > 1 || n < 2 || n > 261 || len != whole_blocks(s->block, end + s->check_len)) return 0;
  s->check(keys + 24, area, end, check);
  for (size_t i = 0; i < s->check_len; i++) wrong |= check[i] ^ area[end + i];
  for (size_t i = end + s->check_len; i < len; i++) wrong |= area[i];
  if (wrong) return 0;
  memcpy(to, area, 9);
  memcpy(to + 9, area + HEAD, n);
  return 9 + n;
}

static size_t opened(const struct suite *s) {
  size_t n = unseal(s, key, sealed, sealed_len, out);
  if (n == 0) {
    fprintf(stderr, "a sealed string does not open\n");
    exit(1);
  }
  return n;
}

size_t bear_seal_aes(size_t n) { return seal(&bear_aes, key, 0, 7, text, n, out); }
size_t bear_seal_triple(size_t n) { return seal(&bear_triple, key, 0, 7, text, n, out); }
size_t tom_seal_aes(size_t n) { return seal(&tom_aes, key, 0, 7, text, n, out); }
size_t tom_seal_triple(size_t n) { return seal(&tom_triple, key, 0, 7, text, n, out); }
size_t bear_open_aes(size_t n) { return (void)n, opened(&bear_aes); }
size_t bear_open_triple(size_t n) { return (void)n, opened(&bear_triple); }
size_t tom_open_aes(size_t n) { return (void)n, opened(&tom_aes); }
size_t tom_open_triple(size_t n) { return (void)n, opened(&tom_triple); }
