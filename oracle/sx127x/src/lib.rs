//! The static library's calls as safe Rust functions over slices and numbers; include/sx127x.h says what each does.
//!
//! A call answers 0 or a refusal's number. Into `results` it puts the bytes of the log that are used afterwards and then
//! the answer's values, each as a word of 64 bits (two's complement), as many as there are places for.
#![no_std]
// A call of the driver has as many as it has.
#![allow(clippy::too_many_arguments)]

use core::mem::size_of;

macro_rules! pointer {
    (shared) => { *const u8 };
    (lent) => { *mut u8 };
}

macro_rules! slice {
    (shared) => {
        &[u8]
    };
    (lent) => {
        &mut [u8]
    };
}

macro_rules! start {
    (shared, $slice:ident) => {
        $slice.as_ptr()
    };
    (lent, $slice:ident) => {
        $slice.as_mut_ptr()
    };
}

/// The library takes 64 bits for a `usize` on every processor: it was proved for lengths of 64 bits.
macro_rules! taken {
    (usize) => {
        u64
    };
    ($type:tt) => {
        $type
    };
}

macro_rules! passed {
    ($number:ident, usize) => {
        $number as u64
    };
    ($number:ident, $type:tt) => {
        $number
    };
}

// A length loses nothing on its way, and a pointer is as wide as the processor's.
const _: () = assert!(usize::BITS <= u64::BITS);
const _: () = assert!(matches!(size_of::<*mut u8>(), 4 | 8) && size_of::<*mut u8>() == size_of::<usize>());

/// A call's slices, its numbers, the slice after them if there is one; `results` come last.
macro_rules! calls {
    ($($symbol:ident as $name:ident(
        $($slice:ident: $kind:tt),*; $($number:ident: $type:tt),*; $($last:ident: $last_kind:tt)?
    );)*) => {
        extern "C" {
            $(fn $symbol(
                $($slice: pointer!($kind), _: u64,)*
                $($number: taken!($type),)*
                $($last: pointer!($last_kind), _: u64,)?
                results: *mut u64, _: u64,
            ) -> i32;)*
        }

        $(pub fn $name(
            $($slice: slice!($kind),)*
            $($number: $type,)*
            $($last: slice!($last_kind),)?
            results: &mut [u64],
        ) -> i32 {
            // The library reads and writes within the slices it is lent, which do not overlap.
            unsafe {
                $symbol(
                    $(start!($kind, $slice), $slice.len() as u64,)*
                    $(passed!($number, $type),)*
                    $(start!($last_kind, $last), $last.len() as u64,)?
                    results.as_mut_ptr(), results.len() as u64,
                )
            }
        })*
    };
}

calls! {
    sx127x_init_lora as init_lora(image: lent, log: lent; used: usize, board: u8, public_network: u8;);
    sx127x_create_modulation_params as create_modulation_params(
        ; board: u8, spreading_factor: u8, bandwidth: u8, coding_rate: u8, frequency_in_hz: u32;
    );
    sx127x_create_packet_params as create_packet_params(
        ; preamble_length: u16, implicit_header: u8, payload_length: u8, crc_on: u8, iq_inverted: u8,
        spreading_factor: u8;
    );
    sx127x_reset as reset(image: lent, log: lent; used: usize;);
    sx127x_set_standby as set_standby(image: lent, log: lent; used: usize;);
    sx127x_set_sleep as set_sleep(image: lent, log: lent; used: usize;);
    sx127x_set_tx_rx_buffer_base_address as set_tx_rx_buffer_base_address(
        image: lent, log: lent; used: usize, tx_base_addr: usize, rx_base_addr: usize;
    );
    sx127x_set_tx_power_and_ramp_time as set_tx_power_and_ramp_time(
        image: lent, log: lent; used: usize, board: u8, power: i32, is_tx_prep: u8;
    );
    sx127x_set_modulation_params as set_modulation_params(
        image: lent, log: lent; used: usize, board: u8, spreading_factor: u8, bandwidth: u8, coding_rate: u8,
        low_data_rate_optimize: u8;
    );
    sx127x_set_packet_params as set_packet_params(
        image: lent, log: lent; used: usize, board: u8, preamble_length: u16, implicit_header: u8,
        payload_length: u8, crc_on: u8, iq_inverted: u8;
    );
    sx127x_set_channel as set_channel(image: lent, log: lent; used: usize, frequency_in_hz: u32;);
    sx127x_set_payload as set_payload(image: lent, fifo: lent, log: lent; used: usize; payload: shared);
    sx127x_do_tx as do_tx(image: lent, log: lent; used: usize;);
    sx127x_do_rx as do_rx(image: lent, log: lent; used: usize, board: u8, rx_mode: u8, symbols: u16;);
    sx127x_get_rx_payload as get_rx_payload(image: lent, fifo: shared, log: lent; used: usize; buffer: lent);
    sx127x_get_rx_packet_status as get_rx_packet_status(image: shared, log: lent; used: usize, board: u8;);
    sx127x_do_cad as do_cad(image: lent, log: lent; used: usize, board: u8;);
    sx127x_set_irq_params as set_irq_params(image: lent, log: lent; used: usize, mode: u8, rx_mode: u8;);
    sx127x_process_irq_event as process_irq_event(
        image: lent, log: lent; used: usize, mode: u8, rx_mode: u8, clear: u8;
    );
    sx127x_set_tx_continuous_wave_mode as set_tx_continuous_wave_mode(
        image: lent, log: lent; used: usize, board: u8;
    );
    sx127x_program as program(
        image: lent, log: lent; used: usize, board: u8, public_network: u8, spreading_factor: u8, bandwidth: u8,
        coding_rate: u8, frequency_in_hz: u32, preamble_length: u16, implicit_header: u8, crc_on: u8,
        iq_inverted: u8, power: i32;
    );
    sx127x_read_link as read_link(image: shared; board: u8;);
    sx127x_airtime as airtime(text: shared;;);
    sx127x_write_hex as write_hex(image: shared, text: lent;;);
    sx127x_read_hex as read_hex(text: shared, image: lent;;);
}
