// Holds our results to the peers', then prints one table: nanoseconds, and in brackets our time divided by the peer's.
#include "card.h"
#include "work.h"
#include <stdio.h>
#include <stdlib.h>
#include <string.h>
#include <time.h>
#include <ucontext.h>

enum { OURS, BEAR, BEAR_BIG, TOM, SSL, ZLIB, DOERS };
static const char *const doers[DOERS] = {"ours", "BearSSL", "BearSSL aes_big", "libtomcrypt", "OpenSSL", "zlib"};

uint8_t key[KEY], text[ROOM], out[ROOM];
uint8_t sealed[288];
size_t sealed_len;

static size_t our_aes_encrypt(size_t n) { return card_aes_cbc_encrypt(key, 16, out, n); }
static size_t our_aes_decrypt(size_t n) { return card_aes_cbc_decrypt(key, 16, out, n); }
static size_t our_triple_encrypt(size_t n) { return card_triple_cbc_encrypt(key, 24, out, n); }
static size_t our_triple_decrypt(size_t n) { return card_triple_cbc_decrypt(key, 24, out, n); }
static size_t our_cmac(size_t n) { return card_cmac(key, 16, text, n, out, 16); }
static size_t our_crc32(size_t n) { return card_crc32(text, n, out, 4); }
static size_t our_sha256(size_t n) { return card_sha256(text, n, out, 32); }
static size_t our_hmac(size_t n) { return card_hmac(key, 32, text, n, out, 32); }
#ifdef SEALING
static size_t our_seal_aes(size_t n) { return card_seal(4, 4, key, 40, 0, 7, text, n, out, 288); }
static size_t our_seal_triple(size_t n) { return card_seal(2, 1, key, 40, 0, 7, text, n, out, 288); }
static size_t our_open_aes(size_t n) { return (void)n, card_open(4, 4, key, 40, sealed, sealed_len, out, 288); }
static size_t our_open_triple(size_t n) { return (void)n, card_open(2, 1, key, 40, sealed, sealed_len, out, 288); }
#endif

struct row {
  const char *name;
  size_t len;
  work *by[DOERS];
  int other;     // the one who does something near it, with another result
  work *sealer;  // for those who open: what seals the string
};

static const struct row rows[] = {
    {"AES-128 CBC encrypt, 288 bytes", 288, {our_aes_encrypt, bear_small_encrypt, bear_big_encrypt, tom_aes_encrypt, ssl_aes_encrypt}, 0, 0},
    {"AES-128 CBC decrypt, 288 bytes", 288, {our_aes_decrypt, bear_small_decrypt, bear_big_decrypt, tom_aes_decrypt, ssl_aes_decrypt}, 0, 0},
    {"triple DES CBC encrypt, 288 bytes", 288, {our_triple_encrypt, bear_triple_encrypt, 0, tom_triple_encrypt, ssl_triple_encrypt}, 0, 0},
    {"triple DES CBC decrypt, 288 bytes", 288, {our_triple_decrypt, bear_triple_decrypt, 0, tom_triple_decrypt, ssl_triple_decrypt}, 0, 0},
    {"SHA-256, 64 bytes", 64, {our_sha256, bear_sha256, 0, tom_sha256, ssl_sha256}, 0, 0},
    {"SHA-256, 1024 bytes", 1024, {our_sha256, bear_sha256, 0, tom_sha256, ssl_sha256}, 0, 0},
    {"HMAC-SHA-256, 64 bytes", 64, {our_hmac, bear_hmac, 0, tom_hmac, ssl_hmac}, 0, 0},
    {"HMAC-SHA-256, 1024 bytes", 1024, {our_hmac, bear_hmac, 0, tom_hmac, ssl_hmac}, 0, 0},
    {"AES-128 CMAC, 288 bytes", 288, {our_cmac, bear_cbc_mac, 0, tom_omac, ssl_cmac}, BEAR, 0},
    {"CRC-32, 288 bytes", 288, {our_crc32, 0, 0, tom_crc32, 0, zlib_crc32}, 0, 0},
#ifdef SEALING
    {"seal AES/CMAC, body of 10 bytes", 10, {our_seal_aes, bear_seal_aes, 0, tom_seal_aes}, 0, 0},
    {"open AES/CMAC, body of 10 bytes", 10, {our_open_aes, bear_open_aes, 0, tom_open_aes}, 0, bear_seal_aes},
    {"seal AES/CMAC, body of 261 bytes", 261, {our_seal_aes, bear_seal_aes, 0, tom_seal_aes}, 0, 0},
    {"open AES/CMAC, body of 261 bytes", 261, {our_open_aes, bear_open_aes, 0, tom_open_aes}, 0, bear_seal_aes},
    {"seal three-key/CRC-32, body of 10 bytes", 10, {our_seal_triple, bear_seal_triple, 0, tom_seal_triple}, 0, 0},
    {"open three-key/CRC-32, body of 10 bytes", 10, {our_open_triple, bear_open_triple, 0, tom_open_triple}, 0, bear_seal_triple},
    {"seal three-key/CRC-32, body of 261 bytes", 261, {our_seal_triple, bear_seal_triple, 0, tom_seal_triple}, 0, 0},
    {"open three-key/CRC-32, body of 261 bytes", 261, {our_open_triple, bear_open_triple, 0, tom_open_triple}, 0, bear_seal_triple},
#endif
};
enum { ROWS = sizeof rows / sizeof rows[0] };

static void fill(uint8_t *bytes, size_t n) {
  static uint32_t state = 1;
  for (size_t i = 0; i < n; i++) {
    state = state * 1664525 + 1013904223;
    bytes[i] = state >> 24;
  }
}

static void prepare(const struct row *r) {
  if (!r->sealer) return;
  sealed_len = r->sealer(r->len);
  memcpy(sealed, out, sealed_len);
}

// Stops where a peer's result is not ours.
static void compare(const struct row *r) {
  static uint8_t ours[ROOM];
  prepare(r);
  memcpy(out, text, ROOM);
  size_t our_len = r->by[OURS](r->len);
  memcpy(ours, out, ROOM);
  for (int d = BEAR; d < DOERS; d++) {
    if (!r->by[d] || d == r->other) continue;
    memcpy(out, text, ROOM);
    size_t len = r->by[d](r->len);
    if (len != our_len || memcmp(out, ours, ROOM) != 0) {
      fprintf(stderr, "%s: ours and %s's result differ\n", r->name, doers[d]);
      exit(1);
    }
  }
}

static double now(void) {
  struct timespec t;
  clock_gettime(CLOCK_MONOTONIC, &t);
  return t.tv_sec * 1e9 + t.tv_nsec;
}

static double burst(work *w, size_t n, int times) {
  double start = now();
  for (int i = 0; i < times; i++) w(n);
  return (now() - start) / times;
}

// The best of some short bursts and of those before, all who do the work in turn.
static void measure(const struct row *r, double best[DOERS]) {
  int times[DOERS];
  prepare(r);
  for (int d = 0; d < DOERS; d++) {
    if (r->by[d]) times[d] = 60000 / burst(r->by[d], r->len, 20) + 1;
  }
  for (int round = 0; round < 40; round++) {
    for (int d = 0; d < DOERS; d++) {
      if (!r->by[d]) continue;
      double t = burst(r->by[d], r->len, times[d]);
      if (t < best[d]) best[d] = t;
    }
  }
}

static void print_row(const struct row *r, const double best[DOERS]) {
  printf("| %-40s | %6.0f |", r->name, best[OURS]);
  for (int d = BEAR; d < DOERS; d++) {
    if (r->by[d]) printf(" %6.0f (%.2f)%s |", best[d], best[OURS] / best[d], d == r->other ? "*" : " ");
    else printf(" %14s |", "");
  }
  printf("\n");
}

// All rows are measured again and again, so that a slow while of the machine falls on none of them alone.
static void print_table(void) {
  double best[ROWS][DOERS];
  for (int i = 0; i < ROWS; i++)
    for (int d = 0; d < DOERS; d++) best[i][d] = 1e18;
  for (int pass = 0; pass < 50; pass++)
    for (int i = 0; i < ROWS; i++) measure(&rows[i], best[i]);
  printf("| %-40s | %6s |", "ns", doers[OURS]);
  for (int d = BEAR; d < DOERS; d++) printf(" %-14s |", doers[d]);
  printf("\n|---|---|---|---|---|---|---|\n");
  for (int i = 0; i < ROWS; i++) print_row(&rows[i], best[i]);
}

static ucontext_t caller, callee;
static const struct row *called;

static void call(void) {
  if (called) called->by[OURS](called->len);
}

// How far down our work writes into a painted stack.
static size_t stack_of(const struct row *r) {
  static uint8_t stack[1 << 16];
  memset(stack, 0xa5, sizeof stack);
  called = r;
  getcontext(&callee);
  callee.uc_stack.ss_sp = stack;
  callee.uc_stack.ss_size = sizeof stack;
  callee.uc_link = &caller;
  makecontext(&callee, call, 0);
  swapcontext(&caller, &callee);
  size_t untouched = 0;
  while (untouched < sizeof stack && stack[untouched] == 0xa5) untouched++;
  return sizeof stack - untouched;
}

static void print_stacks(void) {
  size_t none = stack_of(NULL);
  printf("\n| deepest stack of our work | bytes |\n|---|---|\n");
  for (int i = 0; i < ROWS; i++) {
    prepare(&rows[i]);
    printf("| %-40s | %5zu |\n", rows[i].name, stack_of(&rows[i]) - none);
  }
}

int main(void) {
  start_peers();
  for (int round = 0; round < 100; round++) {
    fill(key, KEY);
    fill(text, ROOM);
    for (int i = 0; i < ROWS; i++) compare(&rows[i]);
  }
  print_table();
  print_stacks();
  return 0;
}
