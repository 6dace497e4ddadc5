/* The deepest stack of a seal and of an open, found by painting a thread's stack before the call. */
#define _GNU_SOURCE
#include <pthread.h>
#include <stdio.h>
#include <string.h>
#include <sys/mman.h>

#include "card_sealer.h"

#define STACK (256 * 1024)
#define PAINT 0xC7

static uint8_t keys[CARD_KEY_BYTES], body[CARD_BODY_MOST], sealed[CARD_ROOM], opened[CARD_ROOM];
static size_t sealed_len;

struct work {
    uint8_t cipher, mechanism;
    size_t body_len;
};

static void *nothing(void *at) { return at; }

static void *seal(void *at) {
    const struct work *w = at;
    sealed_len = card_seal(w->cipher, w->mechanism, keys, sizeof keys, 0, 1, body, w->body_len, sealed, sizeof sealed);
    return at;
}

static void *open_(void *at) {
    const struct work *w = at;
    card_open(w->cipher, w->mechanism, keys, sizeof keys, sealed, sealed_len, opened, sizeof opened);
    return at;
}

/* Bytes of a fresh stack that the function touched. */
static size_t touched(void *(*run)(void *), struct work *w) {
    uint8_t *stack = mmap(NULL, STACK, PROT_READ | PROT_WRITE, MAP_PRIVATE | MAP_ANONYMOUS, -1, 0);
    pthread_attr_t attr;
    pthread_t thread;
    size_t i = 0;
    memset(stack, PAINT, STACK);
    pthread_attr_init(&attr);
    pthread_attr_setstack(&attr, stack, STACK);
    if (pthread_create(&thread, &attr, run, w) != 0) return 0;
    pthread_join(thread, NULL);
    while (i < STACK && stack[i] == PAINT) i++;
    munmap(stack, STACK);
    return STACK - i;
}

int main(void) {
    static const uint8_t suites[][2] = {{1, 1}, {1, 4}, {2, 1}, {2, 4}, {4, 1}, {4, 4}};
    struct work first = {4, 4, CARD_BODY_MOST};
    seal(&first), open_(&first);  /* so that what the dynamic linker does at a first call is not counted */
    for (size_t i = 0; i < 6; i++) {
        struct work w = {suites[i][0], suites[i][1], CARD_BODY_MOST};
        size_t base = touched(nothing, &w), s = touched(seal, &w), o = touched(open_, &w);
        printf("suite %02X %02X: deepest stack of a seal %zu bytes, of an open %zu bytes\n", w.cipher, w.mechanism, s - base, o - base);
    }
    return 0;
}
