/*
 * A ticket machine's half of one transaction: seal a fare as a command, open the card's reply.
 * The reply is sealed here too, in the card's place, so that the example runs alone.
 */
#include <stdio.h>
#include <string.h>

#include "card_sealer.h"

/* Key bytes as the machine and the card have derived them. */
static const uint8_t KEYS[CARD_KEY_BYTES] = {
    0x01, 0x02, 0x03, 0x04, 0x05, 0x06, 0x07, 0x08, 0x09, 0x0A, 0x0B, 0x0C, 0x0D, 0x0E, 0x0F, 0x10, 0x11, 0x12, 0x13, 0x14,
    0x15, 0x16, 0x17, 0x18, 0x19, 0x1A, 0x1B, 0x1C, 0x1D, 0x1E, 0x1F, 0x20, 0x21, 0x22, 0x23, 0x24, 0x25, 0x26, 0x27, 0x28,
};

static void show(const char *what, const uint8_t *bytes, size_t len) {
    printf("%-15s", what);
    for (size_t i = 0; i < len; i++) printf(" %02X", bytes[i]);
    printf("\n");
}

static uint64_t number_of(const uint8_t *bytes) {
    uint64_t number = 0;
    for (int i = 0; i < 8; i++) number = number << 8 | bytes[i];
    return number;
}

/* Seals under AES-128 with CMAC; 0 where the arguments do not fit. */
static size_t seal(uint8_t direction, uint64_t number, const uint8_t *body, size_t body_len, uint8_t out[CARD_ROOM]) {
    size_t len = card_seal(CARD_CIPHER_AES_128, CARD_MECHANISM_CMAC, KEYS, sizeof KEYS, direction, number, body, body_len, out, CARD_ROOM);
    return len == CARD_UNFIT ? 0 : len;
}

/* Opens a reply to the command of that number. Answers the body's length and sets `body`; 0 where it is no such reply. */
static size_t open_reply(uint64_t number, const uint8_t *string, size_t string_len, uint8_t out[CARD_ROOM], const uint8_t **body) {
    size_t len = card_open(CARD_CIPHER_AES_128, CARD_MECHANISM_CMAC, KEYS, sizeof KEYS, string, string_len, out, CARD_ROOM);
    if (len == CARD_UNFIT || len == CARD_SHUT) return 0;
    if (out[0] != CARD_DIRECTION_REPLY || number_of(out + 1) != number) return 0;
    *body = out + CARD_HEAD;
    return len - CARD_HEAD;
}

int main(void) {
    const uint64_t number = 0;  /* the transaction's number: 0 at first, one higher for each command that the card accepted */
    const uint8_t fare[] = {0x80, 0xE2, 0x00, 0x00, 0x05, 0x02, 0x00, 0x00, 0x01, 0x2C};  /* append a fare: class 2, amount 300 */
    const uint8_t done[] = {0x90, 0x00};
    uint8_t sealed[CARD_ROOM], opened[CARD_ROOM];
    const uint8_t *reply = NULL;

    size_t len = seal(CARD_DIRECTION_COMMAND, number, fare, sizeof fare, sealed);
    if (len == 0) return 1;
    show("fare", fare, sizeof fare);
    show("sealed command", sealed, len);

    /* .. here the machine sends the string to the card, and fetches the sealed reply .. */
    len = seal(CARD_DIRECTION_REPLY, number, done, sizeof done, sealed);
    if (len == 0) return 1;
    show("sealed reply", sealed, len);

    size_t reply_len = open_reply(number, sealed, len, opened, &reply);
    if (reply_len == 0) return 1;
    show("reply", reply, reply_len);

    sealed[0] ^= 0x01;  /* a string that was damaged on its way is refused */
    if (open_reply(number, sealed, len, opened, &reply) != 0) return 1;
    printf("a damaged reply does not open\n");
    return 0;
}
