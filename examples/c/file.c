/* Enciphers or deciphers a file of any size under a key that stands under a label, piece by piece, with X9.23 padding.

       ./file encipher FOLDER ROLE LABEL IV < PLAINTEXT > CIPHERTEXT
       ./file decipher FOLDER ROLE LABEL IV < CIPHERTEXT > PLAINTEXT

   The initialization vector is 16 hexadecimal digits. CCA may name the program. docs/LIBRARIES.md shows how it is
   compiled. */
#include "cca.h"

#include <stdio.h>
#include <stdlib.h>
#include <string.h>

#define PIECE 65536

typedef struct cca_result verb(struct cca *it, struct cca_key key, enum cca_segment segment, const unsigned char *iv, const char *pad,
                               unsigned char chain[CCA_CHAIN_SIZE], const unsigned char *text, size_t length, unsigned char *out,
                               size_t *out_length);

/* What is done with each piece of the file. */
struct conversion {
    struct cca *cca;
    verb *verb;
    const char *label;
    const unsigned char *iv;
    unsigned char chain[CCA_CHAIN_SIZE];
};

/* Converts a piece and writes what comes: 0, or 1 where something failed. */
static int convert(struct conversion *it, enum cca_segment segment, const unsigned char *text, size_t length)
{
    static unsigned char out[PIECE + 16];
    char told[600];
    size_t out_length;
    struct cca_result came =
        it->verb(it->cca, cca_label(it->label), segment, it->iv, "X9.23", it->chain, text, length, out, &out_length);
    if (came.outcome != CCA_DONE) {
        cca_tell(&came, told, sizeof told);
        fprintf(stderr, "file: %s\n", told);
        return 1;
    }
    return fwrite(out, 1, out_length, stdout) == out_length ? 0 : 1;
}

/* Reads the input to its end. A piece is the last one if none is behind it, so one is read ahead. */
static int convert_all(struct conversion *it)
{
    static unsigned char pieces[2][PIECE];
    size_t lengths[2];
    int now = 0;
    if (convert(it, CCA_FIRST, NULL, 0) != 0)
        return 1;
    lengths[now] = fread(pieces[now], 1, PIECE, stdin);
    while ((lengths[!now] = fread(pieces[!now], 1, PIECE, stdin)) > 0) {
        if (convert(it, CCA_MIDDLE, pieces[now], lengths[now]) != 0)
            return 1;
        now = !now;
    }
    return ferror(stdin) || convert(it, CCA_LAST, pieces[now], lengths[now]) != 0 || fflush(stdout) != 0;
}

int main(int count, char **words)
{
    unsigned char iv[8];
    struct cca cca;
    struct conversion it = {.cca = &cca, .iv = iv};
    int at, failed, is_encipher = count == 6 && strcmp(words[1], "encipher") == 0;
    if (count != 6 || strlen(words[5]) != 16 || (!is_encipher && strcmp(words[1], "decipher") != 0))
        return 2;
    for (at = 0; at < 8; at++) {
        char pair[3] = {words[5][2 * at], words[5][2 * at + 1], '\0'};
        iv[at] = (unsigned char)strtoul(pair, NULL, 16);
    }
    it.verb = is_encipher ? cca_encipher_segment : cca_decipher_segment;
    it.label = words[4];
    cca_open(&cca, words[2], words[3]);
    if (getenv("CCA"))
        cca.client.program = getenv("CCA");
    failed = convert_all(&it);
    cca_close(&cca);
    return failed;
}
