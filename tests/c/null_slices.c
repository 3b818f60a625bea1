/* Lends NULL with length 0 for each slice of each call in turn, and sees that the answer is the right one and that a
 * refusal left everything as it was. */
#include "sx127x.h"

#include <stdio.h>
#include <string.h>

enum { BOARD = SX127X_SX1276 | SX127X_TX_BOOST, RECEIVED = 5, REG_RX_NB_BYTES = 0x13 };

/* Bytes are a payload, a receive buffer or a depot's file; a text is Intel HEX, or the room for it. */
enum { IMAGE, FIFO, LOG, BYTES, TEXT, SLICES };

static const char *const left_out[SLICES] = {"no image", "no FIFO", "no log", "no payload, buffer or file", "no text"};

struct slice {
    uint8_t *start;
    uint64_t len;
};

struct lent {
    struct slice slices[SLICES];
    int64_t *results;
    uint64_t results_len;
};

struct memory {
    uint8_t image[SX127X_IMAGE_SIZE], fifo[SX127X_FIFO_SIZE], log[SX127X_MAX_RECORDS * SX127X_RECORD_SIZE], bytes[16];
    uint8_t text[SX127X_HEX_TEXT_SIZE];
    int64_t results[SX127X_MAX_RESULTS];
};

/* ---- the calls */

#define OF(slice) l->slices[slice].start, l->slices[slice].len
#define BOTH OF(IMAGE), OF(LOG), 0
#define RESULTS l->results, l->results_len
#define CALL(name, ...) static int32_t name(const struct lent *l) { return sx127x_##name(__VA_ARGS__, RESULTS); }

CALL(init_lora, BOTH, BOARD, 1)
CALL(set_tx_rx_buffer_base_address, BOTH, 0, 0)
CALL(set_channel, BOTH, 868100000)
CALL(set_tx_power_and_ramp_time, BOTH, BOARD, 14, 0)
CALL(create_modulation_params, BOARD, SX127X_SF9, SX127X_BW_125, SX127X_CR_4_5, 868100000)
CALL(create_packet_params, 8, 0, 16, 1, 0, SX127X_SF9)
CALL(set_modulation_params, BOTH, BOARD, SX127X_SF9, SX127X_BW_125, SX127X_CR_4_5, 0)
CALL(set_packet_params, BOTH, BOARD, 8, 0, 16, 1, 0)
CALL(reset, BOTH)
CALL(set_standby, BOTH)
CALL(set_sleep, BOTH)
CALL(do_tx, BOTH)
CALL(do_rx, BOTH, BOARD, SX127X_RX_CONTINUOUS, 0)
CALL(do_cad, BOTH, BOARD)
CALL(set_tx_continuous_wave_mode, BOTH, BOARD)
CALL(set_payload, OF(IMAGE), OF(FIFO), OF(LOG), 0, OF(BYTES))
CALL(get_rx_payload, OF(IMAGE), OF(FIFO), OF(LOG), 0, OF(BYTES))
CALL(get_rx_packet_status, BOTH, BOARD)
CALL(set_irq_params, BOTH, SX127X_MODE_TRANSMIT, 0)
CALL(process_irq_event, BOTH, SX127X_MODE_TRANSMIT, 0, 1)
CALL(program, BOTH, BOARD, 1, SX127X_SF9, SX127X_BW_125, SX127X_CR_4_5, 868100000, 8, 0, 1, 0, 14)
CALL(read_link, OF(IMAGE), BOARD)
CALL(airtime, OF(BYTES))
CALL(write_hex, OF(IMAGE), OF(TEXT))
CALL(read_hex, OF(TEXT), OF(IMAGE))

/* The answer without an image, a FIFO, a log, bytes, a text; 0 where a call is not lent that slice. Without results it
 * is 0. */
static const struct {
    const char *name;
    int32_t (*call)(const struct lent *l);
    int32_t without[SLICES];
} calls[] = {
    {"init_lora", init_lora, {26, 0, 24, 0, 0}},
    {"set_tx_rx_buffer_base_address", set_tx_rx_buffer_base_address, {26, 0, 24, 0, 0}},
    {"set_channel", set_channel, {26, 0, 24, 0, 0}},
    {"set_tx_power_and_ramp_time", set_tx_power_and_ramp_time, {26, 0, 24, 0, 0}},
    {"create_modulation_params", create_modulation_params, {0, 0, 0, 0, 0}},
    {"create_packet_params", create_packet_params, {0, 0, 0, 0, 0}},
    {"set_modulation_params", set_modulation_params, {26, 0, 24, 0, 0}},
    {"set_packet_params", set_packet_params, {26, 0, 24, 0, 0}},
    {"reset", reset, {26, 0, 24, 0, 0}},
    {"set_standby", set_standby, {26, 0, 24, 0, 0}},
    {"set_sleep", set_sleep, {26, 0, 24, 0, 0}},
    {"do_tx", do_tx, {26, 0, 24, 0, 0}},
    {"do_rx", do_rx, {26, 0, 24, 0, 0}},
    {"do_cad", do_cad, {26, 0, 24, 0, 0}},
    {"set_tx_continuous_wave_mode", set_tx_continuous_wave_mode, {26, 0, 24, 0, 0}},
    {"set_payload", set_payload, {26, 26, 24, 0, 0}},
    {"get_rx_payload", get_rx_payload, {26, 26, 24, 13, 0}},
    {"get_rx_packet_status", get_rx_packet_status, {26, 0, 24, 0, 0}},
    {"set_irq_params", set_irq_params, {26, 0, 24, 0, 0}},
    {"process_irq_event", process_irq_event, {26, 0, 24, 0, 0}},
    {"program", program, {26, 0, 24, 0, 0}},
    {"read_link", read_link, {26, 0, 0, 0, 0}},
    {"airtime", airtime, {0, 0, 0, 0, 0}},
    {"write_hex", write_hex, {26, 0, 0, 0, 41}},
    {"read_hex", read_hex, {26, 0, 0, 0, 32}},
};

/* ---- what is lent */

static int failures;

static void expect(int holds, const char *name, const char *what)
{
    if (!holds) {
        printf("%s, %s: not as expected\n", name, what);
        failures++;
    }
}

static struct lent lend(struct memory *m)
{
    struct lent l = {{{m->image, sizeof m->image}, {m->fifo, sizeof m->fifo}, {m->log, sizeof m->log},
                      {m->bytes, sizeof m->bytes}, {m->text, sizeof m->text}},
                     m->results, SX127X_MAX_RESULTS};
    return l;
}

static struct lent lend_without(struct memory *m, int slice)
{
    struct lent l = lend(m);
    l.slices[slice].start = NULL;
    l.slices[slice].len = 0;
    return l;
}

/* Registers that hold a link, a packet of five bytes received, bytes that are a file of one line, and a text that has
 * other registers. */
static void fill(struct memory *m)
{
    memset(m, 0, sizeof *m);
    memcpy(m->bytes, "1\t7\t7\t1\t8\t5\t0\t1\n", sizeof m->bytes);
    struct lent l = lend(m);
    expect(write_hex(&l) == SX127X_OK, "write_hex", "to begin with");
    expect(program(&l) == SX127X_OK, "program", "to begin with");
    memset(m->log, 0, sizeof m->log);
    memset(m->results, 0xff, sizeof m->results);
    m->image[REG_RX_NB_BYTES] = RECEIVED;
}

/* ---- what is seen */

static int same_but_results(const struct memory *a, const struct memory *b)
{
    return memcmp(a->image, b->image, sizeof a->image) == 0 && memcmp(a->fifo, b->fifo, sizeof a->fifo) == 0 &&
           memcmp(a->log, b->log, sizeof a->log) == 0 && memcmp(a->bytes, b->bytes, sizeof a->bytes) == 0 &&
           memcmp(a->text, b->text, sizeof a->text) == 0;
}

/* A refusal changes nothing and tells that no bytes are used, but for 13, which empty_buffer looks at. */
static void without(size_t n, int slice)
{
    struct memory m, refused;
    fill(&m);
    fill(&refused);
    refused.results[0] = 0;
    struct lent l = lend_without(&m, slice);
    const int32_t wanted = calls[n].without[slice];
    expect(calls[n].call(&l) == wanted, calls[n].name, left_out[slice]);
    if (wanted != SX127X_OK && wanted != SX127X_PAYLOAD_SIZE_MISMATCH) {
        expect(memcmp(&refused, &m, sizeof m) == 0, calls[n].name, left_out[slice]);
    }
}

/* Nothing is told, and all else is as it is with results. */
static void without_results(size_t n)
{
    struct memory m, told;
    fill(&m);
    fill(&told);
    struct lent l = lend(&told);
    expect(calls[n].call(&l) == SX127X_OK, calls[n].name, "all lent");
    l = lend(&m);
    l.results = NULL;
    l.results_len = 0;
    expect(calls[n].call(&l) == SX127X_OK, calls[n].name, "no results");
    expect(same_but_results(&m, &told), calls[n].name, "no results");
}

static void without_anything(size_t n)
{
    const struct lent nothing = {{{NULL, 0}, {NULL, 0}, {NULL, 0}, {NULL, 0}, {NULL, 0}}, NULL, 0};
    expect(calls[n].call(&nothing) == calls[n].without[IMAGE], calls[n].name, "nothing lent");
}

/* A payload of no bytes is one: its FIFO record says 0. */
static void empty_payload(void)
{
    static const uint8_t record[] = {SX127X_FIFO_WRITE, 0, 0};
    struct memory m;
    fill(&m);
    struct lent l = lend_without(&m, BYTES);
    expect(set_payload(&l) == SX127X_OK && m.results[0] == 12, "set_payload", "an empty payload");
    expect(memcmp(&m.log[6], record, sizeof record) == 0, "set_payload", "an empty payload");
}

/* 13 tells both lengths; a packet of no bytes fits into no buffer. */
static void empty_buffer(void)
{
    struct memory m;
    fill(&m);
    struct lent l = lend_without(&m, BYTES);
    expect(get_rx_payload(&l) == SX127X_PAYLOAD_SIZE_MISMATCH, "get_rx_payload", "a packet for no buffer");
    expect(m.results[0] == 3 && m.results[1] == RECEIVED && m.results[2] == 0, "get_rx_payload", "both lengths");
    m.image[REG_RX_NB_BYTES] = 0;
    expect(get_rx_payload(&l) == SX127X_OK && m.results[1] == 0, "get_rx_payload", "an empty packet");
}

/* A file of no bytes has no line that could be bad, and totals of 0; its answer is told like any other's. */
static void empty_file(void)
{
    struct memory m;
    fill(&m);
    struct lent l = lend_without(&m, BYTES);
    expect(airtime(&l) == SX127X_OK, "airtime", "an empty file");
    for (size_t n = 0; n < SX127X_MAX_RESULTS; n++) {
        expect(m.results[n] == 0, "airtime", "an empty file");
    }
}

/* A log of no bytes has none that are used. */
static void used_of_no_log(void)
{
    struct memory m;
    fill(&m);
    const int32_t answer = sx127x_reset(m.image, sizeof m.image, NULL, 0, SX127X_RECORD_SIZE, NULL, 0);
    expect(answer == SX127X_BAD_IMAGE, "reset", "bytes used of no log");
}

int main(void)
{
    for (size_t n = 0; n < sizeof calls / sizeof calls[0]; n++) {
        for (int slice = 0; slice < SLICES; slice++) {
            without(n, slice);
        }
        without_results(n);
        without_anything(n);
    }
    empty_payload();
    empty_buffer();
    empty_file();
    used_of_no_log();
    if (failures == 0) {
        printf("NULL slices: as expected\n");
    }
    return failures != 0;
}
