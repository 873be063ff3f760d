/*
 * Whether the first signature of a data set was made over what the data set says now.
 *
 *     check DATASET UID DIGEST
 *
 * DATASET  a file with the data set alone, without the preamble and group 0002 of a DICOM file
 * UID      the transfer syntax of the DICOM file
 * DIGEST   the SHA-256 digest that was signed, in 64 hex digits
 *
 * Status: 0 the digest is the expected one; 1 it differs, or the check is refused; 2 nothing was checked.
 */
#include <errno.h>
#include <stdio.h>
#include <string.h>
#include "eddyplume.h"
#include "eddyplume_sentences.h"

/* Room for one byte more than a data set may have: a larger one is refused (number 1), not cut. */
static uint8_t data[1048576 + 1], work[1048576];

static bool read_digest(const char *hex, uint8_t digest[32]) {
    if (strlen(hex) != 64 || strspn(hex, "0123456789abcdefABCDEF") != 64) return false;
    for (int i = 0; i < 32; i++) sscanf(hex + 2 * i, "%2hhx", &digest[i]);
    return true;
}

int main(int argc, char **argv) {
    if (argc != 4) {
        fprintf(stderr, "usage: check DATASET UID DIGEST\n");
        return 2;
    }
    const char *name = argv[1], *uid = argv[2], *hex = argv[3];

    uint8_t expected[32];
    if (!read_digest(hex, expected)) {
        fprintf(stderr, "check: the digest is not 64 hex digits: %s\n", hex);
        return 2;
    }

    FILE *file = fopen(name, "rb");
    if (!file) {
        fprintf(stderr, "check: %s cannot be opened: %s\n", name, strerror(errno));
        return 2;
    }
    size_t length = fread(data, 1, sizeof data, file);
    if (ferror(file)) {
        fprintf(stderr, "check: %s cannot be read: %s\n", name, strerror(errno));
        return 2;
    }
    fclose(file);

    uint64_t answer[3];
    uint8_t verdict[1];
    eddyplume_signature_check((const uint8_t *)uid, strlen(uid), false, 0, data, length, expected, sizeof expected,
                              work, sizeof work, answer, verdict);
    if (verdict[0] == 1) {
        printf("The digest is the expected one.\n");
        return 0;
    }
    if (verdict[0] == 2) {
        printf("The digest differs from the expected one.\n");
        return 1;
    }
    printf("Refused, number %d, position %d: %s\n", (int)answer[0], (int)answer[1], eddyplume_sentences[answer[0]]);
    return 1;
}
