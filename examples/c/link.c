/* Programs a link on an SX1276, prints what goes over the bus, reads the link back, and shows a refusal. */
#include "sx127x.h"

#include <stdio.h>
#include <string.h>

static const uint8_t BOARD = SX127X_SX1276 | SX127X_TX_BOOST;

static void print_log(const uint8_t *log, uint64_t used)
{
    static const char kinds[] = "RWFGSPZ";
    for (uint64_t at = 0; at < used; at += SX127X_RECORD_SIZE) {
        printf("%c %02X %02X\n", kinds[log[at]], log[at + 1], log[at + 2]);
    }
}

/* A link's values fit a long. The C libraries of small processors seldom print 64 bits. */
static void print_link(const int64_t *link)
{
    static const char *const names[] = {"public network", "spreading factor", "bandwidth", "coding rate", "hertz",
                                        "preamble", "implicit header", "CRC", "IQ inverted", "power"};
    for (size_t n = 0; n < sizeof names / sizeof names[0]; n++) {
        printf("%-17s%ld\n", names[n], (long)link[n]);
    }
}

/* SF9, 125 kHz, 4/5, 14 dBm. */
static int32_t program(uint8_t *image, uint8_t *log, uint64_t log_len, uint32_t hz, int64_t *results)
{
    return sx127x_program(image, SX127X_IMAGE_SIZE, log, log_len, 0, BOARD, 1, SX127X_SF9, SX127X_BW_125,
                          SX127X_CR_4_5, hz, 8, 0, 1, 0, 14, results, SX127X_MAX_RESULTS);
}

int main(void)
{
    uint8_t image[SX127X_IMAGE_SIZE];
    uint8_t log[SX127X_MAX_RECORDS * SX127X_RECORD_SIZE];
    int64_t results[SX127X_MAX_RESULTS];

    memset(image, 0, sizeof image);
    int32_t answer = program(image, log, sizeof log, 868100000, results);
    printf("program: %s\n", sx127x_answer_name(answer));
    print_log(log, (uint64_t)results[0]);

    answer = sx127x_read_link(image, sizeof image, BOARD, results, SX127X_MAX_RESULTS);
    printf("read_link: %s\n", sx127x_answer_name(answer));
    if (answer == SX127X_OK) {
        print_link(&results[1]);
    }

    answer = program(image, log, sizeof log, 1024000000, results);
    printf("program at 1024 MHz: %s\n", sx127x_answer_name(answer));
    answer = program(image, log, SX127X_RECORD_SIZE, 868100000, results);
    printf("program with room for one record: %s\n", sx127x_answer_name(answer));
    return 0;
}
