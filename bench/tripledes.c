/* Nanoseconds for a triple DES block, ours and OpenSSL's, in one run. Both encipher one block in place, over and over, under the
 * same key; each turn is timed once for each side, the sides in alternation, and the shortest turn of each side counts. */
#define OPENSSL_SUPPRESS_DEPRECATED
#include <openssl/des.h>
#include <openssl/evp.h>
#include <stdint.h>
#include <stdio.h>
#include <string.h>
#include <time.h>

/* a slice is a pointer and a length */
uint32_t tripledes_chain(const uint8_t *key, size_t key_len, uint8_t *block, size_t block_len, uint32_t count);

enum { TURNS = 25, BLOCKS = 20000, KEYS = 5000 };

static const uint8_t KEY[16] = {0x40, 0x41, 0x42, 0x43, 0x44, 0x45, 0x46, 0x47, 0x48, 0x49, 0x4a, 0x4b, 0x4c, 0x4d, 0x4e, 0x4f};

static double now(void) {
    struct timespec t;
    clock_gettime(CLOCK_MONOTONIC, &t);
    return t.tv_sec * 1e9 + t.tv_nsec;
}

static void set_keys(DES_key_schedule *first, DES_key_schedule *second) {
    DES_set_key_unchecked((const_DES_cblock *)KEY, first);
    DES_set_key_unchecked((const_DES_cblock *)(KEY + 8), second);
}

static double ours(uint8_t *block) {
    double start = now();
    if (tripledes_chain(KEY, 16, block, 8, BLOCKS) != 0) return -1;
    return (now() - start) / BLOCKS;
}

static double openssl(uint8_t *block) {
    DES_key_schedule first, second;
    double start = now();
    set_keys(&first, &second);
    for (int i = 0; i < BLOCKS; i++)
        DES_ecb3_encrypt((const_DES_cblock *)block, (DES_cblock *)block, &first, &second, &first, DES_ENCRYPT);
    return (now() - start) / BLOCKS;
}

/* one key made ready and one block */
static double ours_keyed(uint8_t *block) {
    double start = now();
    for (int i = 0; i < KEYS; i++)
        if (tripledes_chain(KEY, 16, block, 8, 1) != 0) return -1;
    return (now() - start) / KEYS;
}

static double openssl_keyed(uint8_t *block) {
    double start = now();
    for (int i = 0; i < KEYS; i++) {
        DES_key_schedule first, second;
        set_keys(&first, &second);
        DES_ecb3_encrypt((const_DES_cblock *)block, (DES_cblock *)block, &first, &second, &first, DES_ENCRYPT);
    }
    return (now() - start) / KEYS;
}

static int compared(const char *what, double (*mine)(uint8_t *), double (*theirs)(uint8_t *)) {
    double a = 1e18, b = 1e18;
    uint8_t x[8] = {0}, y[8] = {0};
    for (int turn = 0; turn < TURNS; turn++) {
        double s = mine(x), t = theirs(y);
        if (s < 0 || memcmp(x, y, 8) != 0) {
            printf("%s: the two sides differ\n", what);
            return 1;
        }
        if (s < a) a = s;
        if (t < b) b = t;
    }
    printf("%-24s ours %7.1f ns   OpenSSL %7.1f ns   ratio %.3f\n", what, a, b, a / b);
    return 0;
}

int main(void) {
    uint8_t block[8] = {0};
    if (tripledes_chain(KEY, 15, block, 8, 1) != 10 || tripledes_chain(KEY, 16, block, 7, 1) != 10) {
        printf("a wrong length was not refused\n");
        return 1;
    }
    printf("%s\n", OPENSSL_VERSION_TEXT);
    return compared("a block", ours, openssl) | compared("a key and a block", ours_keyed, openssl_keyed);
}
