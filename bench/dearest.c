/* Writes a script of the dearest commands to standard output: a channel at level 03, and in it PUT KEY and INSTALL with the longest
 * body that the level has room for, in turn. The argument says how many commands, the two that open the channel included. */
#define OPENSSL_SUPPRESS_DEPRECATED
#include <openssl/des.h>
#include <stdint.h>
#include <stdio.h>
#include <stdlib.h>
#include <string.h>

static const uint8_t KEY[16] = {0x40, 0x41, 0x42, 0x43, 0x44, 0x45, 0x46, 0x47, 0x48, 0x49, 0x4a, 0x4b, 0x4c, 0x4d, 0x4e, 0x4f};
static const uint8_t HOST[8] = {0x11, 0x22, 0x33, 0x44, 0x55, 0x66, 0x77, 0x88};
static const uint8_t CARD[8] = {0xc1, 0xc2, 0xc3, 0xc4, 0xc5, 0xc6, 0xc7, 0xc8};

static void encipher(const uint8_t key[16], const uint8_t in[8], uint8_t out[8]) {
    DES_key_schedule first, second;
    DES_set_key_unchecked((const_DES_cblock *)key, &first);
    DES_set_key_unchecked((const_DES_cblock *)(key + 8), &second);
    DES_ecb3_encrypt((const_DES_cblock *)in, (DES_cblock *)out, &first, &second, &first, DES_ENCRYPT);
}

/* the blocks of `bytes`, each xored with the value before it and enciphered; `out` (may be NULL) gets them, `value` the last */
static void chain(const uint8_t key[16], uint8_t value[8], const uint8_t *bytes, size_t length, uint8_t *out) {
    for (size_t at = 0; at < length; at += 8) {
        for (int i = 0; i < 8; i++) value[i] ^= bytes[at + i];
        encipher(key, value, value);
        if (out) memcpy(out + at, value, 8);
    }
}

/* the chained code of `bytes` from `value`, left in `value` */
static void code(const uint8_t key[16], uint8_t value[8], const uint8_t *bytes, size_t length) {
    uint8_t padded[272] = {0};
    memcpy(padded, bytes, length);
    padded[length] = 0x80;
    chain(key, value, padded, length / 8 * 8 + 8, NULL);
}

static void print(const uint8_t *bytes, size_t length) {
    for (size_t i = 0; i < length; i++) printf("%02X", bytes[i]);
    putchar('\n');
}

static uint8_t enc[16], mac[16], value[8];

static void session_keys(void) {
    uint8_t blocks[16];
    memcpy(blocks, CARD + 4, 4);
    memcpy(blocks + 4, HOST, 4);
    memcpy(blocks + 8, CARD, 4);
    memcpy(blocks + 12, HOST + 4, 4);
    for (int i = 0; i < 16; i += 8) {
        encipher(KEY, blocks + i, enc + i);
        encipher(KEY, blocks + i, mac + i);
    }
}

static void print_image(void) {
    uint8_t image[12 + 50 + 50 + 21 + 1] = {0x01, 0x0F};
    uint8_t *at = image + 12;
    for (int version = 1; version <= 2; version++) {
        *at++ = 0x02;
        *at++ = version;
        for (int i = 0; i < 3; i++, at += 16) memcpy(at, KEY, 16);
    }
    const uint8_t load_file[] = {0x03, 0x01, 0x06, 0xA0, 0x00, 0x00, 0x00, 0x18, 0x01};
    memcpy(at, load_file, sizeof load_file);
    at[19] = 0x01;
    print(image, sizeof image);
}

static void print_opening(void) {
    uint8_t update[13] = {0x80, 0x50, 0x01, 0x00, 0x08}, authenticate[21] = {0x84, 0x82, 0x03, 0x00, 0x10}, both[16];
    memcpy(update + 5, HOST, 8);
    print(update, sizeof update);
    memcpy(both, CARD, 8);
    memcpy(both + 8, HOST, 8);
    code(enc, authenticate + 5, both, 16);
    code(mac, value, authenticate, 13);
    memcpy(authenticate + 13, value, 8);
    print(authenticate, sizeof authenticate);
}

static void print_wrapped(uint8_t instruction, uint8_t p1, uint8_t p2, const uint8_t *body, uint8_t length) {
    uint8_t plain[5 + 239] = {0x84, instruction, p1, p2, length + 8}, text[240] = {length}, sent[5 + 248] = {0x84, instruction, p1, p2};
    size_t blocks = (length + 8) / 8 * 8;
    memcpy(plain + 5, body, length);
    code(mac, value, plain, 5 + length);
    memcpy(text + 1, body, length);
    if (length + 1u < blocks) text[length + 1] = 0x80;
    uint8_t start[8] = {0};
    chain(enc, start, text, blocks, sent + 5);
    memcpy(sent + 5 + blocks, value, 8);
    sent[4] = blocks + 8;
    print(sent, 5 + blocks + 8);
}

/* replaces set 02 by three keys, which are the old ones */
static void print_put_key(void) {
    uint8_t body[67] = {0x02}, check[8];
    const uint8_t zeros[8] = {0};
    encipher(KEY, zeros, check);
    for (uint8_t *at = body + 1; at < body + 67; at += 22) {
        at[0] = 0x81;
        at[1] = 0x10;
        encipher(KEY, KEY, at + 2);
        encipher(KEY, KEY + 8, at + 10);
        at[18] = 0x03;
        memcpy(at + 19, check, 3);
    }
    print_wrapped(0xD8, 0x02, 0x81, body, sizeof body);
}

/* the first time answered 9000, and then 6A80, for the name is in use; parameters fill the body */
static void print_install(void) {
    uint8_t body[239] = {0x06, 0xA0, 0x00, 0x00, 0x00, 0x18, 0x01, 0x07, 0xA0, 0x00, 0x00, 0x00, 0x18, 0x01, 0x01,
                         0x07, 0xA0, 0x00, 0x00, 0x00, 0x18, 0x01, 0x01, 0x01, 0x00};
    body[25] = 239 - 27;
    print_wrapped(0xE6, 0x0C, 0x00, body, sizeof body);
}

int main(int argc, char **argv) {
    long count = argc == 2 ? strtol(argv[1], NULL, 10) : 0;
    if (count < 2) {
        fprintf(stderr, "usage: dearest COUNT, at least 2\n");
        return 1;
    }
    session_keys();
    print_image();
    print(CARD, 8);
    print_opening();
    for (long i = 2; i < count; i++)
        if (i % 2) print_install();
        else print_put_key();
    return 0;
}
