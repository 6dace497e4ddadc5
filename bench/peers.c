// The work as the peers do it, key set-up included. What can be made once for all keys is made once.
#include "work.h"
#include <bearssl.h>
#include <openssl/core_names.h>
#include <openssl/evp.h>
#include <string.h>
#include <tomcrypt.h>
#include <zlib.h>

static EVP_CIPHER_CTX *cipher;
static EVP_CIPHER *aes, *triple;
static EVP_MD_CTX *md;
static EVP_MD *sha256;
static EVP_MAC_CTX *cmac, *hmac;
static int tom_aes, tom_triple, tom_sha;

void start_peers(void) {
  cipher = EVP_CIPHER_CTX_new();
  aes = EVP_CIPHER_fetch(NULL, "AES-128-CBC", NULL);
  triple = EVP_CIPHER_fetch(NULL, "DES-EDE3-CBC", NULL);
  md = EVP_MD_CTX_new();
  sha256 = EVP_MD_fetch(NULL, "SHA256", NULL);
  OSSL_PARAM with_aes[] = {OSSL_PARAM_construct_utf8_string(OSSL_MAC_PARAM_CIPHER, "AES-128-CBC", 0), OSSL_PARAM_construct_end()};
  cmac = EVP_MAC_CTX_new(EVP_MAC_fetch(NULL, "CMAC", NULL));
  EVP_MAC_CTX_set_params(cmac, with_aes);
  OSSL_PARAM with_sha[] = {OSSL_PARAM_construct_utf8_string(OSSL_MAC_PARAM_DIGEST, "SHA256", 0), OSSL_PARAM_construct_end()};
  hmac = EVP_MAC_CTX_new(EVP_MAC_fetch(NULL, "HMAC", NULL));
  EVP_MAC_CTX_set_params(hmac, with_sha);
  tom_aes = register_cipher(&aes_desc);
  tom_triple = register_cipher(&des3_desc);
  tom_sha = register_hash(&sha256_desc);
}

size_t bear_small_encrypt(size_t n) {
  br_aes_small_cbcenc_keys k;
  uint8_t iv[16] = {0};
  br_aes_small_cbcenc_init(&k, key, 16);
  br_aes_small_cbcenc_run(&k, iv, out, n);
  return 0;
}

size_t bear_small_decrypt(size_t n) {
  br_aes_small_cbcdec_keys k;
  uint8_t iv[16] = {0};
  br_aes_small_cbcdec_init(&k, key, 16);
  br_aes_small_cbcdec_run(&k, iv, out, n);
  return 0;
}

size_t bear_big_encrypt(size_t n) {
  br_aes_big_cbcenc_keys k;
  uint8_t iv[16] = {0};
  br_aes_big_cbcenc_init(&k, key, 16);
  br_aes_big_cbcenc_run(&k, iv, out, n);
  return 0;
}

size_t bear_big_decrypt(size_t n) {
  br_aes_big_cbcdec_keys k;
  uint8_t iv[16] = {0};
  br_aes_big_cbcdec_init(&k, key, 16);
  br_aes_big_cbcdec_run(&k, iv, out, n);
  return 0;
}

size_t bear_triple_encrypt(size_t n) {
  br_des_tab_cbcenc_keys k;
  uint8_t iv[8] = {0};
  br_des_tab_cbcenc_init(&k, key, 24);
  br_des_tab_cbcenc_run(&k, iv, out, n);
  return 0;
}

size_t bear_triple_decrypt(size_t n) {
  br_des_tab_cbcdec_keys k;
  uint8_t iv[8] = {0};
  br_des_tab_cbcdec_init(&k, key, 24);
  br_des_tab_cbcdec_run(&k, iv, out, n);
  return 0;
}

size_t bear_cbc_mac(size_t n) {
  br_aes_small_ctrcbc_keys k;
  br_aes_small_ctrcbc_init(&k, key, 16);
  memset(out, 0, 16);
  br_aes_small_ctrcbc_mac(&k, out, text, n);
  return 0;
}

size_t bear_sha256(size_t n) {
  br_sha256_context s;
  br_sha256_init(&s);
  br_sha256_update(&s, text, n);
  br_sha256_out(&s, out);
  return 0;
}

size_t bear_hmac(size_t n) {
  br_hmac_key_context k;
  br_hmac_context h;
  br_hmac_key_init(&k, &br_sha256_vtable, key, 32);
  br_hmac_init(&h, &k, 0);
  br_hmac_update(&h, text, n);
  br_hmac_out(&h, out);
  return 0;
}

static size_t tom_encrypt(int which, int key_len, size_t n) {
  static const uint8_t iv[16] = {0};
  symmetric_CBC c;
  cbc_start(which, iv, key, key_len, 0, &c);
  cbc_encrypt(out, out, n, &c);
  cbc_done(&c);
  return 0;
}

static size_t tom_decrypt(int which, int key_len, size_t n) {
  static const uint8_t iv[16] = {0};
  symmetric_CBC c;
  cbc_start(which, iv, key, key_len, 0, &c);
  cbc_decrypt(out, out, n, &c);
  cbc_done(&c);
  return 0;
}

size_t tom_aes_encrypt(size_t n) { return tom_encrypt(tom_aes, 16, n); }
size_t tom_aes_decrypt(size_t n) { return tom_decrypt(tom_aes, 16, n); }
size_t tom_triple_encrypt(size_t n) { return tom_encrypt(tom_triple, 24, n); }
size_t tom_triple_decrypt(size_t n) { return tom_decrypt(tom_triple, 24, n); }

size_t tom_omac(size_t n) {
  unsigned long len = 16;
  omac_memory(tom_aes, key, 16, text, n, out, &len);
  return 0;
}

size_t tom_crc32(size_t n) {
  crc32_state s;
  crc32_init(&s);
  crc32_update(&s, text, n);
  crc32_finish(&s, out, 4);
  return 0;
}

size_t tom_sha256(size_t n) {
  hash_state s;
  sha256_init(&s);
  sha256_process(&s, text, n);
  sha256_done(&s, out);
  return 0;
}

size_t tom_hmac(size_t n) {
  unsigned long len = 32;
  hmac_memory(tom_sha, key, 32, text, n, out, &len);
  return 0;
}

static size_t ssl_cbc(const EVP_CIPHER *which, int encrypting, size_t n) {
  static const uint8_t iv[16] = {0};
  int len;
  EVP_CipherInit_ex2(cipher, which, key, iv, encrypting, NULL);
  EVP_CIPHER_CTX_set_padding(cipher, 0);
  EVP_CipherUpdate(cipher, out, &len, out, n);
  return 0;
}

size_t ssl_aes_encrypt(size_t n) { return ssl_cbc(aes, 1, n); }
size_t ssl_aes_decrypt(size_t n) { return ssl_cbc(aes, 0, n); }
size_t ssl_triple_encrypt(size_t n) { return ssl_cbc(triple, 1, n); }
size_t ssl_triple_decrypt(size_t n) { return ssl_cbc(triple, 0, n); }

static size_t ssl_mac(EVP_MAC_CTX *which, size_t key_len, size_t n) {
  size_t len;
  EVP_MAC_init(which, key, key_len, NULL);
  EVP_MAC_update(which, text, n);
  EVP_MAC_final(which, out, &len, 32);
  return 0;
}

size_t ssl_cmac(size_t n) { return ssl_mac(cmac, 16, n); }
size_t ssl_hmac(size_t n) { return ssl_mac(hmac, 32, n); }

size_t ssl_sha256(size_t n) {
  EVP_DigestInit_ex2(md, sha256, NULL);
  EVP_DigestUpdate(md, text, n);
  EVP_DigestFinal_ex(md, out, NULL);
  return 0;
}

size_t zlib_crc32(size_t n) {
  uint32_t c = crc32(0, text, n);
  for (int i = 0; i < 4; i++) out[i] = c >> (24 - 8 * i);
  return 0;
}
