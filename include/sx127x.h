/* sx127x.h: drives Semtech's SX1272 and SX1276 LoRa radios through libexports.a.
 *
 * The library does not touch a bus. You lend it an image of the radio's 128 registers as last read, and a log; a call
 * appends to the log what is to be done on the bus, in order, and leaves the image as these records leave the
 * registers. Play the new records onto the bus and the radio has done what was asked.
 *
 *   uint8_t image[SX127X_IMAGE_SIZE];               the registers, as last read
 *   uint8_t log[SX127X_MAX_RECORDS * SX127X_RECORD_SIZE];
 *   int64_t results[SX127X_MAX_RESULTS];
 *   int32_t answer = sx127x_set_channel(image, sizeof image, log, sizeof log, 0, 868100000,
 *                                       results, SX127X_MAX_RESULTS);
 *
 * The image follows the records and nothing else. Mode changes and the reset pin are not imitated: a mode that ends, a
 * flag that rises, a packet that comes and the values of a reset are in the radio alone. Read the registers anew before
 * a call that is to see them, and after every sx127x_reset.
 *
 * A call answers for any numbers and any lengths: there is nothing in it that can fail in another way. It keeps no
 * state, allocates nothing and does not wait.
 *
 * Every call answers 0 (SX127X_OK) or the number of a refusal. A refusal changes and appends nothing, but for two:
 * SX127X_PAYLOAD_SIZE_MISMATCH has read RegRxNbBytes, SX127X_RECEIVE_TIMEOUT the flags, and cleared them where asked.
 *
 * What else a call tells it puts into `results`, as many as there are places for (NULL and 0 for none):
 *   results[0]   the bytes of the log that are used afterwards, also after a refusal; hand them to the next call.
 *                0 from a call that takes no log.
 *   results[1..] the values, as each function's comment lists them; after a refusal those that its name below lists,
 *                and from sx127x_airtime the line's number whatever the refusal.
 * Other places are left alone. A length or a base comes as the int64_t of the same 64 bits.
 *
 * The slices that are lent to one call must not overlap. A slice of length 0 may be NULL.
 */
#ifndef SX127X_H
#define SX127X_H

#include <stddef.h>
#include <stdint.h>

#ifdef __cplusplus
extern "C" {
#endif

/* ---- how a slice is passed: its pointer, then its length
 *
 * A length, and every other number that the library counts with, is uint64_t and not size_t: the library was proved for
 * lengths of 64 bits, and takes 64 bits on every processor that it is compiled for. A pointer is as wide as the
 * processor's. Were a length declared as size_t, a program for a 32-bit processor would compile without a warning and
 * put all that follows the first pointer elsewhere than the library looks for it: wrong answers and a fault. A size_t
 * that you hand over is widened by your compiler.
 *
 * An array of negative size here means that your compiler passes something else than the library expects.
 */
typedef char sx127x_a_length_has_64_bits[sizeof(uint64_t) == 8 && sizeof(size_t) <= 8 ? 1 : -1];
typedef char sx127x_a_pointer_has_32_or_64_bits[sizeof(void *) == 4 || sizeof(void *) == 8 ? 1 : -1];
typedef char sx127x_a_pointer_is_an_address[sizeof(void *) == sizeof(uintptr_t) ? 1 : -1];

#if defined(__x86_64__) || defined(_M_X64)
/* `rt lib` compiles for Linux: x32 has shorter pointers, Windows other registers for them. */
typedef char sx127x_x86_64_pointer_has_64_bits[sizeof(void *) == 8 ? 1 : -1];
#ifdef _WIN32
#error "libexports.a for x86-64 takes its arguments as Linux passes them, and Windows passes them otherwise"
#endif
#endif

#if defined(__arm__) && !defined(__ARM_EABI__)
#error "libexports.a for ARM takes a length in a pair of registers as the EABI has it"
#endif

/* ---- sizes */

enum {
    SX127X_IMAGE_SIZE = 128, /* an image, exactly */
    SX127X_FIFO_SIZE = 256,  /* a FIFO, exactly */
    SX127X_RECORD_SIZE = 3,  /* a record of the log; a log is a whole number of them */
    SX127X_MAX_RECORDS = 30, /* no call appends more */
    SX127X_MAX_RESULTS = 11, /* no call tells more */
    SX127X_MAX_PAYLOAD = 255,
    SX127X_MAX_LINES = 50000,       /* a depot's file has no more */
    SX127X_MAX_LINE_SIZE = 32,      /* a line of an accepted one is no longer, its LF counted */
    SX127X_HEX_TEXT_SIZE = 364,     /* the text of an image that is written, exactly */
    SX127X_MAX_HEX_TEXT_SIZE = 1933 /* one that is read and has no empty records is no longer */
};

/* ---- records: kind, address, data
 *
 * A FIFO record tells how many bytes, and does not have them; 0 bytes are none to transfer. Those of SX127X_FIFO_WRITE
 * are the payload that sx127x_set_payload was lent; the lent FIFO has them too, from place 0 on. Those of
 * SX127X_FIFO_READ stand at the start of the buffer that sx127x_get_rx_payload was lent; they are the lent FIFO's. No
 * other call appends either kind.
 */
enum {
    SX127X_READ = 0,        /* a register was read: address, the byte that the image has there */
    SX127X_WRITE = 1,       /* a register is written: address, byte */
    SX127X_FIFO_READ = 2,   /* FIFO bytes are read: 0, how many */
    SX127X_FIFO_WRITE = 3,  /* FIFO bytes are written: 0, how many */
    SX127X_RF_SWITCH = 4,   /* the antenna switch: 0, one of the next three */
    SX127X_RESET_PIN = 5,   /* the reset pin: 0, 0 */
    SX127X_SLEEP_WRITE = 6  /* as SX127X_WRITE, but do not wait for the radio afterwards */
};

enum { SX127X_SWITCH_OFF = 0, SX127X_SWITCH_RX = 1, SX127X_SWITCH_TX = 2 };

/* ---- answers
 *
 * Each function lists its refusals by these numbers, in the order in which they are looked for: the first that holds is
 * the answer. What an 8 looks at and how many records a 24 asks room for stands behind the number.
 */
enum {
    SX127X_OK = 0,
    SX127X_INVALID_CONFIGURATION = 8,             /* an argument is none of its codes, or a flag is neither 0 nor 1 */
    SX127X_INVALID_RADIO_MODE = 9,                /* no interrupts come in this mode */
    SX127X_INVALID_BASE_ADDRESS = 11,             /* a base above 255; both bases */
    SX127X_PAYLOAD_SIZE_UNEXPECTED = 12,          /* a payload over 255 bytes; its length */
    SX127X_PAYLOAD_SIZE_MISMATCH = 13,            /* a packet over the buffer's length; both lengths */
    SX127X_UNAVAILABLE_SPREADING_FACTOR = 14,     /* SF5 */
    SX127X_UNAVAILABLE_BANDWIDTH = 15,            /* SX1272: only 125, 250 and 500 kHz */
    SX127X_INVALID_BANDWIDTH_FOR_FREQUENCY = 16,  /* 250 or 500 kHz below 400,000,000 Hz */
    SX127X_INVALID_SF6_EXPLICIT_HEADER = 17,      /* SF6 wants an implicit header */
    SX127X_RECEIVE_TIMEOUT = 20,                  /* in receive, RxTimeout is set and RxDone is not */
    SX127X_DUTY_CYCLE_UNSUPPORTED = 21,           /* these radios have no duty-cycle receive */
    SX127X_FREQUENCY_OUT_OF_RANGE = 23,           /* a link at 1,024,000,000 Hz or more */
    SX127X_LOG_FULL = 24,                         /* no room for the call's records */
    SX127X_CARRIER_UNSUPPORTED = 25,              /* the carrier test is the SX1276's alone */
    SX127X_BAD_IMAGE = 26,                        /* an image not of 128 bytes or a FIFO not of 256; a log's length or
                                                     used bytes no multiple of 3; more bytes used than the log has */
    SX127X_NOT_A_LINK = 27,                       /* no link leaves these registers */
    SX127X_BAD_LINE = 28,                         /* a line of bad form, out of range or one too many; its number */
    SX127X_BAD_HEX = 29,                          /* a record of bad form or of another type; an end record with bytes
                                                     or an address; text after the end record */
    SX127X_BAD_SUM = 30,                          /* a record's sum is wrong */
    SX127X_WRONG_PLACE = 31,                      /* a byte's address is 128 or more, or was set before */
    SX127X_INCOMPLETE = 32,                       /* an address that is not set, or no end record */
    SX127X_TEXT_FULL = 41                         /* no room for the text */
};

/* An answer's name, for people. */
static inline const char *sx127x_answer_name(int32_t answer)
{
    switch (answer) {
    case SX127X_OK: return "ok";
    case SX127X_INVALID_CONFIGURATION: return "InvalidConfiguration";
    case SX127X_INVALID_RADIO_MODE: return "InvalidRadioMode";
    case SX127X_INVALID_BASE_ADDRESS: return "InvalidBaseAddress";
    case SX127X_PAYLOAD_SIZE_UNEXPECTED: return "PayloadSizeUnexpected";
    case SX127X_PAYLOAD_SIZE_MISMATCH: return "PayloadSizeMismatch";
    case SX127X_UNAVAILABLE_SPREADING_FACTOR: return "UnavailableSpreadingFactor";
    case SX127X_UNAVAILABLE_BANDWIDTH: return "UnavailableBandwidth";
    case SX127X_INVALID_BANDWIDTH_FOR_FREQUENCY: return "InvalidBandwidthForFrequency";
    case SX127X_INVALID_SF6_EXPLICIT_HEADER: return "InvalidSF6ExplicitHeaderRequest";
    case SX127X_RECEIVE_TIMEOUT: return "ReceiveTimeout";
    case SX127X_DUTY_CYCLE_UNSUPPORTED: return "DutyCycleUnsupported";
    case SX127X_FREQUENCY_OUT_OF_RANGE: return "FrequencyOutOfRange";
    case SX127X_LOG_FULL: return "LogFull";
    case SX127X_CARRIER_UNSUPPORTED: return "CarrierUnsupported";
    case SX127X_BAD_IMAGE: return "BadImage";
    case SX127X_NOT_A_LINK: return "NotALink";
    case SX127X_BAD_LINE: return "BadLine";
    case SX127X_BAD_HEX: return "BadHex";
    case SX127X_BAD_SUM: return "BadSum";
    case SX127X_WRONG_PLACE: return "WrongPlace";
    case SX127X_INCOMPLETE: return "Incomplete";
    case SX127X_TEXT_FULL: return "TextFull";
    default: return "no answer of this driver";
    }
}

/* ---- arguments. A flag is 0 or 1. */

/* A board: a radio, and any of the flags, or-ed. Other bits are not looked at. */
enum {
    SX127X_SX1272 = 0,
    SX127X_SX1276 = 1,
    SX127X_TCXO = 2,     /* a temperature-compensated oscillator */
    SX127X_TX_BOOST = 4, /* transmits by the PA_BOOST pin */
    SX127X_RX_BOOST = 8  /* receives with the boosted amplifier */
};

enum { SX127X_SF5 = 5, SX127X_SF6, SX127X_SF7, SX127X_SF8, SX127X_SF9, SX127X_SF10, SX127X_SF11, SX127X_SF12 };

/* In kHz, rounded down. The SX1272 has the last three. */
enum {
    SX127X_BW_7 = 0,
    SX127X_BW_10,
    SX127X_BW_15,
    SX127X_BW_20,
    SX127X_BW_31,
    SX127X_BW_41,
    SX127X_BW_62,
    SX127X_BW_125,
    SX127X_BW_250,
    SX127X_BW_500
};

enum { SX127X_CR_4_5 = 1, SX127X_CR_4_6, SX127X_CR_4_7, SX127X_CR_4_8 };

enum {
    SX127X_MODE_SLEEP = 0,
    SX127X_MODE_STANDBY,
    SX127X_MODE_FREQUENCY_SYNTHESIS,
    SX127X_MODE_TRANSMIT,
    SX127X_MODE_RECEIVE,
    SX127X_MODE_CHANNEL_ACTIVITY_DETECTION,
    SX127X_MODE_NONE /* for sx127x_set_irq_params */
};

enum { SX127X_RX_SINGLE = 0, SX127X_RX_CONTINUOUS, SX127X_RX_DUTY_CYCLE };

/* What sx127x_process_irq_event found. */
enum { SX127X_EVENT_NOTHING = 0, SX127X_EVENT_PREAMBLE_RECEIVED, SX127X_EVENT_DONE };

/* ---- setting up */

/* Sets the sync word of a public or a private network, the oscillator's input where the board has one, and both FIFO
 * bases to 0.
 * Refusals: 26, 8 (public_network), 24 (3 records, with SX127X_TCXO 4). */
int32_t sx127x_init_lora(uint8_t *image, uint64_t image_len, uint8_t *log, uint64_t log_len, uint64_t used,
                         uint8_t board, uint8_t public_network, int64_t *results, uint64_t results_len);

/* Sets both FIFO bases to 0, whatever bases are asked for: the Rust's way.
 * Refusals: 26, 11, 24 (2 records). */
int32_t sx127x_set_tx_rx_buffer_base_address(uint8_t *image, uint64_t image_len, uint8_t *log, uint64_t log_len,
                                             uint64_t used, uint64_t tx_base_addr, uint64_t rx_base_addr,
                                             int64_t *results, uint64_t results_len);

/* Sets the frequency, to the step of 15625/256 Hz at or below it. The radio's count of steps has 24 bits and wraps:
 * 1,024,000,000 Hz and above are set as what is left of them modulo 1,024,000,000. This call does not refuse them;
 * sx127x_program does.
 * Refusals: 26, 24 (3 records). */
int32_t sx127x_set_channel(uint8_t *image, uint64_t image_len, uint8_t *log, uint64_t log_len, uint64_t used,
                           uint32_t frequency_in_hz, int64_t *results, uint64_t results_len);

/* Sets the power, in dBm, held to what the board can do: 2 to 20 with SX127X_TX_BOOST, without it -4 to 14 on the
 * SX1276 and -1 to 14 on the SX1272. The ramp is 40 us where is_tx_prep is 1, else 250 us.
 * Refusals: 26, 8 (is_tx_prep), 24 (4 records, on the SX1272 3). */
int32_t sx127x_set_tx_power_and_ramp_time(uint8_t *image, uint64_t image_len, uint8_t *log, uint64_t log_len,
                                          uint64_t used, uint8_t board, int32_t power, uint8_t is_tx_prep,
                                          int64_t *results, uint64_t results_len);

/* ---- modulation and packets */

/* Judges a modulation. Values: spreading factor, bandwidth, coding rate, low data rate optimize, hertz. Low data rate
 * optimize is 1 exactly where a symbol lasts longer than 16 ms: 1000 * 2^SF > 16 * bandwidth in Hz.
 * Refusals: 8 (spreading_factor, bandwidth, coding_rate), 14, 15, 16. */
int32_t sx127x_create_modulation_params(uint8_t board, uint8_t spreading_factor, uint8_t bandwidth, uint8_t coding_rate,
                                        uint32_t frequency_in_hz, int64_t *results, uint64_t results_len);

/* Judges a packet's parameters. Values: preamble, implicit header, payload length, CRC, IQ.
 * Refusals: 8 (implicit_header, crc_on, iq_inverted, spreading_factor), 17. */
int32_t sx127x_create_packet_params(uint16_t preamble_length, uint8_t implicit_header, uint8_t payload_length,
                                    uint8_t crc_on, uint8_t iq_inverted, uint8_t spreading_factor, int64_t *results,
                                    uint64_t results_len);

/* Sets spreading factor, bandwidth, coding rate and low data rate optimize, each as it is given.
 * Refusals: 26, 8 (spreading_factor, bandwidth, coding_rate, low_data_rate_optimize), 14, 15, 24 (11 records, on
 * the SX1272 7). */
int32_t sx127x_set_modulation_params(uint8_t *image, uint64_t image_len, uint8_t *log, uint64_t log_len, uint64_t used,
                                     uint8_t board, uint8_t spreading_factor, uint8_t bandwidth, uint8_t coding_rate,
                                     uint8_t low_data_rate_optimize, int64_t *results, uint64_t results_len);

/* Sets preamble, header, CRC and IQ. The payload's length reaches no register here: sx127x_set_payload sets it.
 * Refusals: 26, 8 (implicit_header, crc_on, iq_inverted), 24 (8 records, on the SX1272 6). */
int32_t sx127x_set_packet_params(uint8_t *image, uint64_t image_len, uint8_t *log, uint64_t log_len, uint64_t used,
                                 uint8_t board, uint16_t preamble_length, uint8_t implicit_header,
                                 uint8_t payload_length, uint8_t crc_on, uint8_t iq_inverted, int64_t *results,
                                 uint64_t results_len);

/* ---- what the radio does */

/* Resets the radio and puts it to sleep, the antenna off. The reset pin is not imitated: the radio then has its reset
 * values, and the image the old ones but for RegOpMode. Read the registers anew once the records are played.
 * Refusals: 26, 24 (3 records). */
int32_t sx127x_reset(uint8_t *image, uint64_t image_len, uint8_t *log, uint64_t log_len, uint64_t used,
                     int64_t *results, uint64_t results_len);

/* Standby, the antenna off.
 * Refusals: 26, 24 (2 records). */
int32_t sx127x_set_standby(uint8_t *image, uint64_t image_len, uint8_t *log, uint64_t log_len, uint64_t used,
                           int64_t *results, uint64_t results_len);

/* Sleep, the antenna off.
 * Refusals: 26, 24 (2 records). */
int32_t sx127x_set_sleep(uint8_t *image, uint64_t image_len, uint8_t *log, uint64_t log_len, uint64_t used,
                         int64_t *results, uint64_t results_len);

/* Transmits the payload.
 * Refusals: 26, 24 (2 records). */
int32_t sx127x_do_tx(uint8_t *image, uint64_t image_len, uint8_t *log, uint64_t log_len, uint64_t used,
                     int64_t *results, uint64_t results_len);

/* Receives: SX127X_RX_SINGLE waits `symbols` symbols for a preamble, held to 4 to 1,023; SX127X_RX_CONTINUOUS does not
 * look at them.
 * Refusals: 26, 8 (rx_mode), 21, 24 (8 records). */
int32_t sx127x_do_rx(uint8_t *image, uint64_t image_len, uint8_t *log, uint64_t log_len, uint64_t used, uint8_t board,
                     uint8_t rx_mode, uint16_t symbols, int64_t *results, uint64_t results_len);

/* Looks for activity on the channel.
 * Refusals: 26, 24 (3 records). */
int32_t sx127x_do_cad(uint8_t *image, uint64_t image_len, uint8_t *log, uint64_t log_len, uint64_t used, uint8_t board,
                      int64_t *results, uint64_t results_len);

/* Transmits a carrier, for tests: by the PA_BOOST pin, whatever the board, and with the antenna switch at receive, as
 * the Rust has it. The continuous bit of its last record is in the image, and by the sheets does not reach the radio
 * (docs/DIFFERENCES.md): read the registers anew afterwards.
 * Refusals: 26, 25, 24 (6 records). */
int32_t sx127x_set_tx_continuous_wave_mode(uint8_t *image, uint64_t image_len, uint8_t *log, uint64_t log_len,
                                           uint64_t used, uint8_t board, int64_t *results, uint64_t results_len);

/* ---- packets */

/* Puts a payload into the FIFO, from place 0 on, and sets its length. The lent FIFO is left as the radio's will be. A
 * payload of no bytes sets the length 0, which the sheets do not permit.
 * Refusals: 26, 12, 24 (4 records). */
int32_t sx127x_set_payload(uint8_t *image, uint64_t image_len, uint8_t *fifo, uint64_t fifo_len, uint8_t *log,
                           uint64_t log_len, uint64_t used, const uint8_t *payload, uint64_t payload_len,
                           int64_t *results, uint64_t results_len);

/* Takes the packet that was received out of the FIFO: as many bytes as RegRxNbBytes (0x13) says, from the place in
 * RegFifoRxCurrentAddr (0x10) on, and from 255 on to 0. They come from the lent FIFO, which is the radio's as last
 * read; what the buffer has behind them stays. Or lend any 256 bytes, and put what the bus gives for SX127X_FIFO_READ
 * into the buffer. Value: how many.
 * Refusals: 26, 24 (5 records), 13. */
int32_t sx127x_get_rx_payload(uint8_t *image, uint64_t image_len, const uint8_t *fifo, uint64_t fifo_len, uint8_t *log,
                              uint64_t log_len, uint64_t used, uint8_t *buffer, uint64_t buffer_len, int64_t *results,
                              uint64_t results_len);

/* The signal of that packet. Values: RSSI in dBm, SNR in dB.
 * Refusals: 26, 24 (5 records, on the SX1272 2). */
int32_t sx127x_get_rx_packet_status(const uint8_t *image, uint64_t image_len, uint8_t *log, uint64_t log_len,
                                    uint64_t used, uint8_t board, int64_t *results, uint64_t results_len);

/* ---- interrupts */

/* Lets through the interrupts of a mode. rx_mode counts in SX127X_MODE_RECEIVE alone.
 * Refusals: 26, 8 (mode, rx_mode), 24 (4 records). */
int32_t sx127x_set_irq_params(uint8_t *image, uint64_t image_len, uint8_t *log, uint64_t log_len, uint64_t used,
                              uint8_t mode, uint8_t rx_mode, int64_t *results, uint64_t results_len);

/* What came in a mode, by the flags in the image; clears them where `clear` is 1. rx_mode counts in
 * SX127X_MODE_RECEIVE alone. Value: an SX127X_EVENT; after SX127X_EVENT_DONE in SX127X_MODE_CHANNEL_ACTIVITY_DETECTION
 * a second one, 1 where there was activity. A packet whose CRC failed is told as done like any other: PayloadCrcError
 * (0x20) is in the record of the flags.
 * Refusals: 26, 8 (mode, SX127X_MODE_NONE too; rx_mode; clear), 9 (SX127X_MODE_FREQUENCY_SYNTHESIS;
 * SX127X_RX_DUTY_CYCLE in SX127X_MODE_RECEIVE), 24 (1 record, 2 to clear), 20. */
int32_t sx127x_process_irq_event(uint8_t *image, uint64_t image_len, uint8_t *log, uint64_t log_len, uint64_t used,
                                 uint8_t mode, uint8_t rx_mode, uint8_t clear, int64_t *results, uint64_t results_len);

/* ---- whole links */

/* Programs a link: network, frequency, modulation, packets and power, with the 250 us ramp. Low data rate optimize is
 * that of sx127x_create_modulation_params.
 * Refusals: 26, 8 (public_network, spreading_factor, bandwidth, coding_rate, implicit_header, crc_on, iq_inverted),
 * 14, 15, 16, 17, 23, 24 (29 records, on the SX1272 22, one more with SX127X_TCXO). */
int32_t sx127x_program(uint8_t *image, uint64_t image_len, uint8_t *log, uint64_t log_len, uint64_t used, uint8_t board,
                       uint8_t public_network, uint8_t spreading_factor, uint8_t bandwidth, uint8_t coding_rate,
                       uint32_t frequency_in_hz, uint16_t preamble_length, uint8_t implicit_header, uint8_t crc_on,
                       uint8_t iq_inverted, int32_t power, int64_t *results, uint64_t results_len);

/* Reads the link that an image holds. Values: public network, spreading factor, bandwidth, coding rate, hertz,
 * preamble, implicit header, CRC, IQ, power in dBm. Programming them again changes no register; hertz and power are
 * those that the registers tell, so they may differ from those that were asked for.
 * Refusals: 26, 27. */
int32_t sx127x_read_link(const uint8_t *image, uint64_t image_len, uint8_t board, int64_t *results,
                         uint64_t results_len);

/* ---- a depot's file */

/* Adds up the airtime of a depot's file of sent packets. It takes the text of the whole file, and no image, log or
 * board. Values: the total of each bandwidth in microseconds, in the order of their codes; each is exact until it is
 * rounded up once at the end. An empty text has ten times 0.
 *
 * A line is a packet: eight decimal numbers parted by one tab each, without sign or leading 0, and an LF:
 *   pack id, 32 bits; spreading factor; bandwidth; coding rate; preamble, 0 to 65,535; length, 0 to 255; implicit
 *   header, 0 or 1; CRC, 0 or 1
 * At most SX127X_MAX_LINES lines; what follows the last LF is a line of bad form.
 *
 * The first bad line refuses the file. Value: its number, from 1.
 * Refusals of a line: 28 (its form; the id, the preamble or the length out of range; a line after the 50,000th), 8
 * (spreading factor, bandwidth, coding rate, implicit header, CRC), 14, 17.
 *
 * To print a file's totals, or which of its lines is bad (with <inttypes.h> and <stdio.h>; examples/c/airtime.c):
 *
 *   static uint8_t text[SX127X_MAX_LINES * SX127X_MAX_LINE_SIZE + 1];   of a longer file the start is refused too
 *   int64_t results[SX127X_MAX_RESULTS];
 *   FILE *file = fopen("depot.txt", "rb");
 *   if (file == NULL) {
 *       perror("depot.txt");
 *       return 1;
 *   }
 *   size_t length = fread(text, 1, sizeof text, file);
 *   fclose(file);
 *   int32_t answer = sx127x_airtime(text, length, results, SX127X_MAX_RESULTS);
 *   if (answer == SX127X_OK) {
 *       for (int bandwidth = SX127X_BW_7; bandwidth <= SX127X_BW_500; bandwidth++) {
 *           printf("%" PRId64 "\n", results[1 + bandwidth]);
 *       }
 *   } else {
 *       printf("line %" PRId64 ": %s\n", results[1], sx127x_answer_name(answer));
 *   }
 */
int32_t sx127x_airtime(const uint8_t *text, uint64_t text_len, int64_t *results, uint64_t results_len);

/* ---- images as Intel HEX
 *
 * A line is a record: a colon, and as hex, two digits a byte, how many data bytes it has, the address of the first in
 * two bytes, its type, the data bytes, and the sum, with which all of these add up to a multiple of 256. Type 0 has
 * data, type 1 is the end. An image's registers have the addresses 0 to 127. examples/c/hex.c writes and reads.
 */

/* Writes an image: eight data records of 16 bytes from address 0 and an end record, in upper case, each line ended by
 * an LF. They stand at the start of `text`; what it has behind them stays, so no 0 ends them. Value: their bytes,
 * SX127X_HEX_TEXT_SIZE.
 * Refusals: 26 (the image), 41. */
int32_t sx127x_write_hex(const uint8_t *image, uint64_t image_len, uint8_t *text, uint64_t text_len, int64_t *results,
                         uint64_t results_len);

/* Fills an image from a text of data records, in any order and empty ones too, closed by one end record with nothing
 * after its line. Digits are of either letter case, and a line is ended by an LF or by CR and LF. Each of the 128
 * addresses is set exactly once, so what the image held before does not matter; after a refusal it still holds it. No
 * values.
 * Refusals: 26 (the image); of the first bad record 29, 30, 31 (an empty record's address is not looked at); where no
 * record is bad 32. */
int32_t sx127x_read_hex(const uint8_t *text, uint64_t text_len, uint8_t *image, uint64_t image_len, int64_t *results,
                        uint64_t results_len);

#ifdef __cplusplus
}
#endif

#endif
