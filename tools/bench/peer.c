/* Measures OpenSSL's DES on the operations of crates/des_speed, in the same lines: name, how many in a round, the
   nanoseconds of the fastest of many rounds. */
#define OPENSSL_SUPPRESS_DEPRECATED
#include <openssl/des.h>
#include <stdint.h>
#include <stdio.h>
#include <string.h>
#include <time.h>

enum { ROUNDS = 400, COUNT = 64, TEXT = 4096 };

static const uint64_t KEYS[3] = {0x0123456789abcdef, 0x23456789abcdef01, 0x456789abcdef0123};

static uint64_t now(void) {
    struct timespec t;
    clock_gettime(CLOCK_MONOTONIC, &t);
    return (uint64_t)t.tv_sec * 1000000000 + (uint64_t)t.tv_nsec;
}

static void put_schedule(uint64_t key, DES_key_schedule *out) {
    DES_cblock bytes;
    for (int i = 0; i < 8; i++)
        bytes[i] = (unsigned char)(key >> (56 - 8 * i));
    DES_set_key_unchecked(&bytes, out);
}

static void example_schedules(DES_key_schedule *out) {
    for (int i = 0; i < 3; i++)
        put_schedule(KEYS[i], &out[i]);
}

static uint64_t key_schedules(uint64_t sum) {
    DES_key_schedule out;
    for (uint64_t i = 0; i < COUNT; i++) {
        put_schedule(sum ^ i, &out);
        sum ^= (uint64_t)(out.ks[0].deslong[1] & 63) << 8 ^ (out.ks[9].deslong[0] & 63);
    }
    return sum;
}

static uint64_t blocks(uint64_t sum) {
    DES_key_schedule s[3];
    DES_cblock block;
    example_schedules(s);
    memcpy(block, &sum, 8);
    for (int i = 0; i < COUNT; i++)
        DES_ecb3_encrypt(&block, &block, &s[0], &s[1], &s[2], DES_ENCRYPT);
    memcpy(&sum, block, 8);
    return sum;
}

static uint64_t requests(uint64_t sum) {
    DES_key_schedule s[3];
    DES_cblock block;
    example_schedules(s);
    for (int i = 0; i < COUNT; i++) {
        for (uint64_t j = 0; j < 8; j++) {
            put_schedule(sum ^ j << 40, &s[j % 3]);
            sum ^= s[j % 3].ks[0].deslong[1] & 63;
        }
        memcpy(block, &sum, 8);
        for (int j = 0; j < 3; j++)
            DES_ecb3_encrypt(&block, &block, &s[0], &s[1], &s[2], DES_ENCRYPT);
        memcpy(&sum, block, 8);
    }
    return sum;
}

static uint64_t short_texts(uint64_t sum) {
    static unsigned char bytes[64];
    DES_key_schedule s[3];
    DES_cblock chain;
    example_schedules(s);
    for (uint64_t i = 0; i < COUNT; i++) {
        uint64_t start = sum ^ i;
        memcpy(chain, &start, 8);
        DES_ede3_cbc_encrypt(bytes, bytes, sizeof bytes, &s[0], &s[1], &s[2], &chain, DES_DECRYPT);
    }
    memcpy(&sum, bytes, 8);
    return sum;
}

static void report(const char *name, uint64_t (*round)(uint64_t)) {
    uint64_t fastest = UINT64_MAX, sum = 0;
    for (int i = 0; i < ROUNDS; i++) {
        uint64_t start = now();
        sum ^= round(sum);
        uint64_t took = now() - start;
        if (took < fastest)
            fastest = took;
    }
    printf("%s %d %llu %llu\n", name, COUNT, (unsigned long long)fastest, (unsigned long long)sum);
}

static unsigned char text[TEXT];

static void cbc(DES_key_schedule *s, unsigned char start, int direction) {
    DES_cblock chain;
    memset(chain, start, 8);
    DES_ede3_cbc_encrypt(text, text, TEXT, &s[0], &s[1], &s[2], &chain, direction);
}

static void single_cbc(DES_key_schedule *s, unsigned char start, int direction) {
    DES_cblock chain;
    memset(chain, start, 8);
    DES_ncbc_encrypt(text, text, TEXT, &s[0], &chain, direction);
}

static void mac(DES_key_schedule *s, unsigned char start, int direction) {
    DES_cblock zero = {0}, code;
    (void)start, (void)direction;
    DES_cbc_cksum(text, &code, TEXT, &s[0], (const_DES_cblock *)&zero);
}

typedef void work_on_text(DES_key_schedule *, unsigned char, int);

static void report_text(const char *name, work_on_text *work, unsigned char start, int direction) {
    DES_key_schedule s[3];
    uint64_t fastest = UINT64_MAX;
    example_schedules(s);
    for (int i = 0; i < ROUNDS; i++) {
        uint64_t begun = now();
        work(s, start, direction);
        uint64_t took = now() - begun;
        if (took < fastest)
            fastest = took;
    }
    printf("%s %d %llu %d\n", name, TEXT, (unsigned long long)fastest, text[0]);
}

static void measure_text(void) {
    report_text("encipher", cbc, 7, DES_ENCRYPT);
    report_text("decipher", cbc, 9, DES_DECRYPT);
    report_text("encipher_single", single_cbc, 7, DES_ENCRYPT);
    report_text("decipher_single", single_cbc, 9, DES_DECRYPT);
    report_text("mac", mac, 0, DES_ENCRYPT);
}

int main(void) {
    report("schedule", key_schedules);
    report("block", blocks);
    report("request", requests);
    report("short", short_texts);
    measure_text();
    return 0;
}
