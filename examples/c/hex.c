/* Writes the registers of a link as Intel HEX to standard output (hex write), or reads such a text from standard input
 * and prints the registers (hex read). */
#include "sx127x.h"

#include <stdio.h>
#include <string.h>

/* Records of one byte each fit, and many empty ones. The byte more tells a text that is longer. */
enum { LONGEST_TEXT = 4096 };
static uint8_t text[LONGEST_TEXT + 1];

static int refused(int32_t answer)
{
    puts(sx127x_answer_name(answer));
    return 1;
}

/* An SX1276 at 868.1 MHz: SF9, 125 kHz, 4/5, 14 dBm. */
static int write_image(void)
{
    uint8_t image[SX127X_IMAGE_SIZE];
    uint8_t log[SX127X_MAX_RECORDS * SX127X_RECORD_SIZE];
    int64_t results[SX127X_MAX_RESULTS];

    memset(image, 0, sizeof image);
    int32_t answer = sx127x_program(image, sizeof image, log, sizeof log, 0, SX127X_SX1276, 1, SX127X_SF9,
                                    SX127X_BW_125, SX127X_CR_4_5, 868100000, 8, 0, 1, 0, 14, results,
                                    SX127X_MAX_RESULTS);
    if (answer == SX127X_OK) {
        answer = sx127x_write_hex(image, sizeof image, text, SX127X_HEX_TEXT_SIZE, results, SX127X_MAX_RESULTS);
    }
    if (answer != SX127X_OK) {
        return refused(answer);
    }
    const size_t length = (size_t)results[1];
    return fwrite(text, 1, length, stdout) == length ? 0 : 1;
}

static int read_image(void)
{
    uint8_t image[SX127X_IMAGE_SIZE];

    const size_t length = fread(text, 1, sizeof text, stdin);
    if (ferror(stdin)) {
        perror("standard input");
        return 1;
    }
    if (length > LONGEST_TEXT) {
        printf("more than %d bytes\n", LONGEST_TEXT);
        return 1;
    }
    const int32_t answer = sx127x_read_hex(text, length, image, sizeof image, NULL, 0);
    if (answer != SX127X_OK) {
        return refused(answer);
    }
    for (size_t address = 0; address < sizeof image; address++) {
        printf("%s%02X", address % 16 == 0 ? "" : " ", image[address]);
        if (address % 16 == 15) {
            putchar('\n');
        }
    }
    return 0;
}

int main(int argc, char **argv)
{
    if (argc == 2 && strcmp(argv[1], "write") == 0) {
        return write_image();
    }
    if (argc == 2 && strcmp(argv[1], "read") == 0) {
        return read_image();
    }
    fputs("usage: hex write | hex read\n", stderr);
    return 2;
}
