/* RULES 15.1 through include/eddyplume.h; compiled and run by tests/header.rs. */
#include <stdio.h>
#include <string.h>
#include "eddyplume.h"
#include "eddyplume_sentences.h"
#include "declared.h" /* a pointer declared_F for each function F, with the type that F has in src/header.rs */

static const uint8_t list[] = {0x08, 0x00, 0x60, 0x00};
static const uint8_t data[] = {0x08, 0x00, 0x60, 0x00, 0x43, 0x53, 0x02, 0x00, 0x43, 0x54,
                               0x10, 0x00, 0x10, 0x00, 0x50, 0x4E, 0x02, 0x00, 0x4C, 0x69};

int main(void) {
    uint8_t out[12];
    uint64_t answer[3];
    memset(out, 0xEE, sizeof out);
    declared_eddyplume_list_stream(list, sizeof list, data, sizeof data, out, sizeof out, answer);
    printf("%d %d %d\n", (int)answer[0], (int)answer[1], (int)answer[2]);
    for (size_t i = 0; i < sizeof out; i++) printf("%02x", out[i]);
    printf("\n%s\n", eddyplume_sentences[answer[0]]);
    return 0;
}
