/*
 * Compares the sealer's calls with the same sealing over OpenSSL's libcrypto.
 * Every buffer that is lent ends at a page that nobody may touch, and every buffer that is written has guard bytes.
 *
 *   test [texts]        so many texts for each suite and body length (20 unless said otherwise)
 *   test --vectors      prints sealed strings worked out by libcrypto alone
 */
#define _GNU_SOURCE
#include <stdio.h>
#include <stdlib.h>
#include <string.h>
#include <sys/mman.h>
#include <unistd.h>

#include "card_sealer.h"
#include "reference.h"

struct suite {
    uint8_t cipher, mechanism;
};

static const struct suite SUITES[] = {{1, 1}, {1, 4}, {2, 1}, {2, 4}, {4, 1}, {4, 4}};
#define SUITE_COUNT (sizeof SUITES / sizeof *SUITES)
#define FENCED 1024

static unsigned long failures, sealed_count, opened_count, bits_count, lengths_count, noise_count, laid_count, unfit_count;

static void expect(int good, const char *what) {
    if (good) return;
    if (failures++ < 20) fprintf(stderr, "FAILED: %s\n", what);
}

/* ---- random bytes: xorshift, so that a run can be repeated ---- */

static uint64_t state = 0x9E3779B97F4A7C15;

static uint64_t any(void) {
    state ^= state << 13;
    state ^= state >> 7;
    state ^= state << 17;
    return state;
}

static void any_bytes(uint8_t *bytes, size_t len) {
    for (size_t i = 0; i < len; i++) bytes[i] = (uint8_t)(any() >> 32);
}

/* ---- buffers that end at a page that nobody may touch ---- */

static uint8_t *fence(void) {
    size_t page = (size_t)sysconf(_SC_PAGESIZE);
    uint8_t *at = mmap(NULL, 2 * page, PROT_READ | PROT_WRITE, MAP_PRIVATE | MAP_ANONYMOUS, -1, 0);
    if (at == MAP_FAILED || mprotect(at + page, page, PROT_NONE) != 0) exit(2);
    return at + page;
}

static uint8_t *keys_fence, *text_fence, *out_fence;

static const uint8_t *lent(uint8_t *fence_at, const uint8_t *bytes, size_t len) {
    memcpy(fence_at - len, bytes, len);
    return fence_at - len;
}

/* The caller's buffer: `room` bytes before the fence, all guard bytes, with more of them in front. */
static uint8_t guard_at(size_t i) { return (uint8_t)(0xA5 ^ i * 7); }

static uint8_t *fresh(size_t room) {
    for (size_t i = 0; i < FENCED; i++) out_fence[-1 - (ptrdiff_t)i] = guard_at(i);
    return out_fence - room;
}

/* Whether the first `len` bytes are these, and all others are guard bytes still. */
static int holds(size_t room, const uint8_t *bytes, size_t len) {
    if (memcmp(out_fence - room, bytes, len) != 0) return 0;
    for (size_t i = 0; i < room - len; i++)
        if (out_fence[-1 - (ptrdiff_t)i] != guard_at(i)) return 0;
    for (size_t i = room; i < FENCED; i++)
        if (out_fence[-1 - (ptrdiff_t)i] != guard_at(i)) return 0;
    return 1;
}

/* ---- the calls, on fenced copies ---- */

static size_t seal(struct suite s, const uint8_t *keys, size_t keys_len, uint8_t direction, uint64_t number, const uint8_t *body, size_t body_len, size_t room) {
    return card_seal(s.cipher, s.mechanism, lent(keys_fence, keys, keys_len), keys_len, direction, number, lent(text_fence, body, body_len), body_len, fresh(room), room);
}

static size_t open_(struct suite s, const uint8_t *keys, size_t keys_len, const uint8_t *string, size_t len, size_t room) {
    return card_open(s.cipher, s.mechanism, lent(keys_fence, keys, keys_len), keys_len, lent(text_fence, string, len), len, fresh(room), room);
}

/* Opens by both, and answers whether it opens. */
static int agree_on(struct suite s, const uint8_t *keys, const uint8_t *string, size_t len, const char *what) {
    uint8_t text[REFERENCE_ROOM];
    size_t expected = reference_open(s.cipher, s.mechanism, keys, string, len, text);
    size_t answer = open_(s, keys, CARD_KEY_BYTES, string, len, CARD_ROOM);
    expect(answer == (expected ? expected : CARD_SHUT), what);
    expect(holds(CARD_ROOM, text, expected), what);
    return expected != 0;
}

/* ---- what is compared ---- */

static void texts_of(struct suite s, size_t body_len, unsigned texts) {
    uint8_t keys[CARD_KEY_BYTES], body[CARD_BODY_MOST], string[REFERENCE_ROOM], text[CARD_ROOM];
    for (unsigned i = 0; i < texts; i++) {
        uint8_t direction = any() >> 40 & 1;
        uint64_t number = i % 4 == 0 ? any() >> 60 : any();
        size_t room = i % 3 == 0 ? CARD_ROOM : CARD_ROOM + any() % 64;
        any_bytes(keys, sizeof keys);
        any_bytes(body, body_len);
        size_t len = reference_seal(s.cipher, s.mechanism, keys, direction, number, body, body_len, string);
        expect(len >= 16 && len <= CARD_ROOM, "length of a sealed string");
        expect(seal(s, keys, sizeof keys, direction, number, body, body_len, room) == len, "length that sealing answers");
        expect(holds(room, string, len), "sealed string, and what stands behind it");
        sealed_count++;
        text[0] = direction;
        for (int j = 0; j < 8; j++) text[1 + j] = (uint8_t)(number >> (56 - 8 * j));
        memcpy(text + CARD_HEAD, body, body_len);
        expect(open_(s, keys, sizeof keys, string, len, room) == CARD_HEAD + body_len, "length that opening answers");
        expect(holds(room, text, CARD_HEAD + body_len), "opened text, and what stands behind it");
        opened_count++;
    }
}

static void damage(struct suite s, size_t body_len) {
    uint8_t keys[CARD_KEY_BYTES], body[CARD_BODY_MOST], string[FENCED];
    any_bytes(keys, sizeof keys);
    any_bytes(body, body_len);
    size_t len = reference_seal(s.cipher, s.mechanism, keys, 0, any(), body, body_len, string);
    for (size_t bit = 0; bit < 8 * len; bit++) {
        string[bit / 8] ^= (uint8_t)(1 << bit % 8);
        expect(!agree_on(s, keys, string, len, "a bit changed"), "a string with a bit changed opens");
        string[bit / 8] ^= (uint8_t)(1 << bit % 8);
        bits_count++;
    }
    memset(string + len, 0, sizeof string - len);
    for (size_t other = 0; other <= 400; other++) {
        int opens = agree_on(s, keys, string, other, "another length");
        expect(opens == (other == len), "a string of another length opens");
        lengths_count++;
    }
    for (size_t other = 0; other <= 400; other++) {
        any_bytes(string, other);
        agree_on(s, keys, string, other, "random bytes");
        noise_count++;
    }
}

/* Frames with a right check that are no text's: each must be refused. */
static void laid_out(struct suite s, size_t body_len) {
    uint8_t keys[CARD_KEY_BYTES], body[CARD_BODY_MOST + 1], string[REFERENCE_ROOM];
    any_bytes(keys, sizeof keys);
    any_bytes(body, sizeof body);
    struct frame good = {.direction = 1, .number = any(), .stated = body_len, .body = body, .body_len = body_len};
    struct frame frames[] = {good, good, good, good, good, good, good, good, good};
    frames[0].direction = 2;
    frames[1].direction = 0xFF;
    frames[2].stated = body_len - 1;
    frames[3].stated = body_len + 1;
    frames[4].more_blocks = 1;
    frames[5].fill = 1;
    frames[6].check_change = 0x80;
    frames[7].stated = frames[7].body_len = 1;
    frames[8].stated = frames[8].body_len = CARD_BODY_MOST + 1;
    expect(agree_on(s, keys, string, reference_frame(s.cipher, s.mechanism, keys, &good, string), "a frame"), "a text's frame does not open");
    size_t fewest = reference_frame(s.cipher, s.mechanism, keys, &good, string);
    size_t used = 11 + body_len + (s.mechanism == 4 ? 16 : 4);
    for (size_t i = 0; i < sizeof frames / sizeof *frames; i++) {
        if (i == 5 && fewest == used) continue;  /* there is no fill */
        size_t len = reference_frame(s.cipher, s.mechanism, keys, &frames[i], string);
        expect(!agree_on(s, keys, string, len, "a frame that is no text's"), "a frame that is no text's opens");
        laid_count++;
    }
}

static void unfit(size_t answer, size_t room) {
    expect(answer == CARD_UNFIT, "7 for what does not fit");
    expect(holds(room, out_fence, 0), "nothing written at 7");
    unfit_count++;
}

/* Each cause of 7, alone, and at opening together with a string that does not open: 7 comes before 8. */
static void refusals(void) {
    uint8_t keys[64], body[400], string[REFERENCE_ROOM];
    struct suite aes = {4, 4};
    any_bytes(keys, sizeof keys);
    any_bytes(body, sizeof body);
    size_t len = reference_seal(4, 4, keys, 0, 7, body, 10, string);
    for (unsigned cipher = 0; cipher < 256; cipher++)
        for (unsigned mechanism = 0; mechanism < 256; mechanism++) {
            struct suite s = {(uint8_t)cipher, (uint8_t)mechanism};
            if ((cipher == 1 || cipher == 2 || cipher == 4) && (mechanism == 1 || mechanism == 4)) continue;
            unfit(seal(s, keys, CARD_KEY_BYTES, 0, 7, body, 10, CARD_ROOM), CARD_ROOM);
            unfit(open_(s, keys, CARD_KEY_BYTES, string, len, CARD_ROOM), CARD_ROOM);
        }
    for (unsigned direction = 2; direction < 256; direction++) unfit(seal(aes, keys, CARD_KEY_BYTES, (uint8_t)direction, 7, body, 10, CARD_ROOM), CARD_ROOM);
    for (size_t n = 0; n <= 64; n++) {
        if (n == CARD_KEY_BYTES) continue;
        unfit(seal(aes, keys, n, 0, 7, body, 10, CARD_ROOM), CARD_ROOM);
        unfit(open_(aes, keys, n, string, len, CARD_ROOM), CARD_ROOM);
        unfit(open_(aes, keys, n, string, len - 1, CARD_ROOM), CARD_ROOM);
        unfit(open_(aes, keys, n, body, 400, CARD_ROOM), CARD_ROOM);
    }
    for (size_t n = 0; n <= 400; n++)
        if (n < CARD_BODY_LEAST || n > CARD_BODY_MOST) unfit(seal(aes, keys, CARD_KEY_BYTES, 0, 7, body, n, CARD_ROOM), CARD_ROOM);
    for (size_t room = 0; room < CARD_ROOM; room++) {
        unfit(seal(aes, keys, CARD_KEY_BYTES, 0, 7, body, 10, room), room);
        unfit(open_(aes, keys, CARD_KEY_BYTES, string, len, room), room);
        unfit(open_(aes, keys, CARD_KEY_BYTES, string, len - 1, room), room);
        unfit(open_(aes, keys, CARD_KEY_BYTES, body, 400, room), room);
    }
}

/* ---- vectors ---- */

static void hex(const uint8_t *bytes, size_t len) {
    for (size_t i = 0; i < len; i++) printf("%02X", bytes[i]);
}

static void vector(struct suite s, size_t body_len) {
    uint8_t keys[CARD_KEY_BYTES], text[CARD_HEAD + CARD_BODY_MOST], string[REFERENCE_ROOM];
    any_bytes(keys, sizeof keys);
    any_bytes(text, sizeof text);
    text[0] &= 1;
    uint64_t number = 0;
    for (int i = 1; i <= 8; i++) number = number << 8 | text[i];
    size_t len = reference_seal(s.cipher, s.mechanism, keys, text[0], number, text + CARD_HEAD, body_len, string);
    printf("seal-%02X%02X ", s.cipher, s.mechanism);
    hex(keys, sizeof keys), printf(" "), hex(text, CARD_HEAD + body_len), printf(" "), hex(string, len), printf("\n");
    string[any() % len] ^= (uint8_t)(1 << any() % 8);
    printf("open-%02X%02X ", s.cipher, s.mechanism);
    hex(keys, sizeof keys), printf(" "), hex(string, len), printf(" -\n");
}

static int vectors(void) {
    static const size_t lens[] = {2, 10, 261};
    printf("# Sealed strings worked out by OpenSSL's libcrypto; a damaged string opens to nothing\n");
    for (size_t i = 0; i < SUITE_COUNT; i++)
        for (size_t j = 0; j < 3; j++) vector(SUITES[i], lens[j]);
    return 0;
}

int main(int argc, char **argv) {
    if (argc > 1 && strcmp(argv[1], "--vectors") == 0) return vectors();
    unsigned texts = argc > 1 ? (unsigned)atoi(argv[1]) : 20;
    static const size_t some[] = {2, 3, 10, 100, 261};
    keys_fence = fence(), text_fence = fence(), out_fence = fence();
    for (size_t i = 0; i < SUITE_COUNT; i++) {
        for (size_t body_len = CARD_BODY_LEAST; body_len <= CARD_BODY_MOST; body_len++) {
            texts_of(SUITES[i], body_len, texts);
            laid_out(SUITES[i], body_len);
        }
        for (size_t j = 0; j < sizeof some / sizeof *some; j++) damage(SUITES[i], some[j]);
    }
    refusals();
    printf("%lu texts sealed as by libcrypto and %lu opened: six suites, every body length 2 to 261\n", sealed_count, opened_count);
    printf("%lu strings with one bit changed, %lu cut or lengthened, %lu of random bytes: as by libcrypto\n", bits_count, lengths_count, noise_count);
    printf("%lu frames with a field that no text has: refused\n", laid_count);
    printf("%lu calls that do not fit: 7, and nothing written\n", unfit_count);
    printf("%lu failures\n", failures);
    return failures != 0;
}
