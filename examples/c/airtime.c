/* Adds up the airtime of a depot's file, from standard input: prints each bandwidth's total, or which line is bad. */
#include "sx127x.h"

#include <inttypes.h>
#include <stdio.h>

/* A byte more than any accepted file has, so that a longer one is refused by its start. */
static uint8_t text[SX127X_MAX_LINES * SX127X_MAX_LINE_SIZE + 1];

int main(void)
{
    static const char *const kilohertz[] = {"7.8",  "10.4", "15.6", "20.8", "31.25",
                                            "41.7", "62.5", "125",  "250",  "500"};
    int64_t results[SX127X_MAX_RESULTS];

    const size_t length = fread(text, 1, sizeof text, stdin);
    if (ferror(stdin)) {
        perror("standard input");
        return 1;
    }
    const int32_t answer = sx127x_airtime(text, length, results, SX127X_MAX_RESULTS);
    if (answer != SX127X_OK) {
        printf("line %" PRId64 ": %s\n", results[1], sx127x_answer_name(answer));
        return 1;
    }
    for (int bandwidth = SX127X_BW_7; bandwidth <= SX127X_BW_500; bandwidth++) {
        printf("%5s kHz %12" PRId64 " us\n", kilohertz[bandwidth], results[1 + bandwidth]);
    }
    return 0;
}
