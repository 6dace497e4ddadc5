/* The same sealing, written over OpenSSL's libcrypto. */
#include "reference.h"

#include <openssl/core_names.h>
#include <openssl/evp.h>
#include <openssl/params.h>
#include <stdio.h>
#include <stdlib.h>
#include <string.h>

static void must(int good, const char *what) {
    if (!good) {
        fprintf(stderr, "libcrypto: %s failed\n", what);
        exit(2);
    }
}

static size_t block_of(uint8_t cipher) { return cipher == 0x04 ? 16 : 8; }

static size_t check_len(uint8_t mechanism) { return mechanism == 0x04 ? 16 : 4; }

static size_t fill_of(size_t len, size_t block) { return (block - len % block) % block; }

static uint32_t crc32(const uint8_t *bytes, size_t len) {
    uint32_t rest = 0xFFFFFFFF;
    for (size_t i = 0; i < len; i++) {
        rest ^= bytes[i];
        for (int bit = 0; bit < 8; bit++) rest = rest & 1 ? rest >> 1 ^ 0xEDB88320 : rest >> 1;
    }
    return ~rest;
}

static void cmac(const uint8_t *key, const uint8_t *bytes, size_t len, uint8_t tag[16]) {
    static EVP_MAC_CTX *context;
    if (!context) {
        EVP_MAC *mac = EVP_MAC_fetch(NULL, "CMAC", NULL);
        must(mac != NULL, "CMAC");
        context = EVP_MAC_CTX_new(mac);
        EVP_MAC_free(mac);
    }
    char name[] = "AES-128-CBC";
    OSSL_PARAM params[] = {OSSL_PARAM_construct_utf8_string(OSSL_MAC_PARAM_CIPHER, name, 0), OSSL_PARAM_construct_end()};
    size_t written = 0;
    must(EVP_MAC_init(context, key, 16, params) && EVP_MAC_update(context, bytes, len) && EVP_MAC_final(context, tag, &written, 16) && written == 16, "CMAC");
}

static void check(uint8_t mechanism, const uint8_t *keys, const uint8_t *bytes, size_t len, uint8_t *tag) {
    if (mechanism == 0x04) {
        cmac(keys + 24, bytes, len, tag);
        return;
    }
    uint32_t sum = crc32(bytes, len);
    for (int i = 0; i < 4; i++) tag[i] = (uint8_t)(sum >> (24 - 8 * i));
}

/* CBC from a zero block, no padding, over whole blocks. */
static void chain(uint8_t cipher, const uint8_t *keys, int encrypts, uint8_t *bytes, size_t len) {
    static EVP_CIPHER_CTX *context;
    static EVP_CIPHER *aes, *des;
    if (!context) {
        context = EVP_CIPHER_CTX_new();
        aes = EVP_CIPHER_fetch(NULL, "AES-128-CBC", NULL);
        des = EVP_CIPHER_fetch(NULL, "DES-EDE3-CBC", NULL);
        must(context && aes && des, "ciphers");
    }
    static const uint8_t zero[16];
    uint8_t key[24], out[REFERENCE_ROOM];
    int written = 0, more = 0;
    memcpy(key, keys, 24);
    if (cipher == 0x01) memcpy(key + 16, keys, 8);
    must(EVP_CipherInit_ex2(context, cipher == 0x04 ? aes : des, key, zero, encrypts, NULL) && EVP_CIPHER_CTX_set_padding(context, 0), "key");
    must(EVP_CipherUpdate(context, out, &written, bytes, (int)len) && EVP_CipherFinal_ex(context, out + written, &more) && (size_t)(written + more) == len, "CBC");
    memcpy(bytes, out, len);
}

size_t reference_frame(uint8_t cipher, uint8_t mechanism, const uint8_t *keys, const struct frame *frame, uint8_t *out) {
    size_t block = block_of(cipher), len = 11 + frame->body_len;
    out[0] = frame->direction;
    for (int i = 0; i < 8; i++) out[1 + i] = (uint8_t)(frame->number >> (56 - 8 * i));
    out[9] = (uint8_t)(frame->stated >> 8);
    out[10] = (uint8_t)frame->stated;
    memcpy(out + 11, frame->body, frame->body_len);
    check(mechanism, keys, out, len, out + len);
    len += check_len(mechanism);
    out[len - 1] ^= frame->check_change;
    size_t fill = fill_of(len, block) + frame->more_blocks * block;
    memset(out + len, 0, fill);
    if (fill > 0) out[len + fill - 1] = frame->fill;
    chain(cipher, keys, 1, out, len + fill);
    return len + fill;
}

size_t reference_seal(uint8_t cipher, uint8_t mechanism, const uint8_t *keys, uint8_t direction, uint64_t number, const uint8_t *body, size_t body_len, uint8_t *out) {
    struct frame frame = {.direction = direction, .number = number, .stated = body_len, .body = body, .body_len = body_len};
    return reference_frame(cipher, mechanism, keys, &frame, out);
}

size_t reference_open(uint8_t cipher, uint8_t mechanism, const uint8_t *keys, const uint8_t *string, size_t len, uint8_t *out) {
    uint8_t plain[REFERENCE_ROOM], tag[16];
    size_t block = block_of(cipher), tag_len = check_len(mechanism);
    if (len < 11 || len > REFERENCE_ROOM || len % block != 0) return 0;
    memcpy(plain, string, len);
    chain(cipher, keys, 0, plain, len);
    size_t body_len = (size_t)plain[9] << 8 | plain[10], end = 11 + body_len;
    if (plain[0] > 1 || body_len < 2 || body_len > 261) return 0;
    if (len != end + tag_len + fill_of(end + tag_len, block)) return 0;
    check(mechanism, keys, plain, end, tag);
    if (memcmp(tag, plain + end, tag_len) != 0) return 0;
    for (size_t i = end + tag_len; i < len; i++)
        if (plain[i] != 0) return 0;
    memcpy(out, plain, 9);
    memcpy(out + 9, plain + 11, body_len);
    return 9 + body_len;
}
