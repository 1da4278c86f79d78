/* Sums the bytes of a file, as many times in a row as the second argument says, and prints the CRC-32: by the loop of
   crates/pt_sum/src/crc.rt, or with a third argument by zlib. */
#include <stdint.h>
#include <stdio.h>
#include <stdlib.h>
#include <string.h>
#include <zlib.h>

#define MOST (1 << 20)

static uint32_t tables[8][256];

/* Row k has, at each byte, the register that holds this byte after 8 * k + 8 moves. */
static void make_tables(void) {
    for (uint32_t byte = 0; byte < 256; byte++) {
        uint32_t sum = byte;
        for (int moves = 1; moves <= 64; moves++) {
            sum = sum & 1 ? sum >> 1 ^ 0xEDB88320 : sum >> 1;
            if (moves % 8 == 0)
                tables[moves / 8 - 1][byte] = sum;
        }
    }
}

/* The last four bytes of a step are looked up one by one. As a word they would take gcc four instructions more. */
static uint32_t after(uint32_t sum, const uint8_t *bytes, size_t length) {
    for (; length >= 8; bytes += 8, length -= 8) {
        uint32_t first;
        memcpy(&first, bytes, 4);
        first ^= sum;
        sum = tables[0][bytes[7]] ^ tables[3][bytes[4]] ^ tables[2][bytes[5]] ^ tables[1][bytes[6]]
            ^ tables[4][first >> 24] ^ tables[7][first & 0xFF] ^ tables[6][first >> 8 & 0xFF] ^ tables[5][first >> 16 & 0xFF];
    }
    for (; length > 0; bytes++, length--)
        sum = tables[0][(sum ^ *bytes) & 0xFF] ^ sum >> 8;
    return sum;
}

int main(int count, char **words) {
    static uint8_t bytes[MOST];
    FILE *file = count > 2 ? fopen(words[1], "rb") : NULL;
    if (!file)
        return 2;
    size_t length = fread(bytes, 1, MOST, file);
    uint32_t sum = 0;
    make_tables();
    for (long rounds = atol(words[2]); rounds > 0; rounds--)
        sum = count > 3 ? crc32(sum, bytes, length) : ~after(~sum, bytes, length);
    printf("%08x\n", sum);
    return 0;
}
