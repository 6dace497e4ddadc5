// What is measured: pieces of work over the same key and text, each done by us and by some of the peers.
#ifndef WORK_H
#define WORK_H
#include <stddef.h>
#include <stdint.h>

enum { KEY = 40, ROOM = 1024 };

// The inputs of all work, and where all work leaves its result: work in place begins with a copy of the text there.
extern uint8_t key[KEY], text[ROOM], out[ROOM];

// A sealed string, for those who open it.
extern uint8_t sealed[288];
extern size_t sealed_len;

// Works on so many bytes, and gives the length of what a sealer wrote, else 0.
typedef size_t work(size_t len);

void start_peers(void);

work bear_small_encrypt, bear_small_decrypt, bear_big_encrypt, bear_big_decrypt, bear_triple_encrypt, bear_triple_decrypt;
work bear_cbc_mac, bear_sha256, bear_hmac;
work tom_aes_encrypt, tom_aes_decrypt, tom_triple_encrypt, tom_triple_decrypt;
work tom_omac, tom_crc32, tom_sha256, tom_hmac;
work ssl_aes_encrypt, ssl_aes_decrypt, ssl_triple_encrypt, ssl_triple_decrypt;
work ssl_cmac, ssl_sha256, ssl_hmac;
work zlib_crc32;

work bear_seal_aes, bear_open_aes, bear_seal_triple, bear_open_triple;
work tom_seal_aes, tom_open_aes, tom_seal_triple, tom_open_triple;
#endif
