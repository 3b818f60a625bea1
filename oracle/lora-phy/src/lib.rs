//! lora-phy 3.0.1's driver for the SX127x: its own files, taken in unchanged from where they lie (see build.rs).
//!
//! Here are only the names that these files expect at the crate's root, and ways to make and to take apart the
//! parameters whose fields are the crate's own.

// The files are as they are: what they leave unused, or would be written otherwise today, is not ours to mend.
#![allow(async_fn_in_trait, dead_code, unused_variables)]

include!(concat!(env!("OUT_DIR"), "/modules.rs"));

pub use embedded_hal_async::{delay::DelayNs, spi};
use interface::*;
use mod_params::*;
use mod_traits::*;

impl ModulationParams {
    /// Parameters as they are given, without `create_modulation_params` and its refusals.
    pub fn as_given(
        spreading_factor: SpreadingFactor,
        bandwidth: Bandwidth,
        coding_rate: CodingRate,
        low_data_rate_optimize: u8,
        frequency_in_hz: u32,
    ) -> Self {
        ModulationParams { spreading_factor, bandwidth, coding_rate, low_data_rate_optimize, frequency_in_hz }
    }

    /// What `create_modulation_params` made, in the order of the fields.
    pub fn fields(&self) -> (SpreadingFactor, Bandwidth, CodingRate, u8, u32) {
        (self.spreading_factor, self.bandwidth, self.coding_rate, self.low_data_rate_optimize, self.frequency_in_hz)
    }
}

impl PacketParams {
    /// Parameters as they are given, without `create_packet_params` and its refusal.
    pub fn as_given(
        preamble_length: u16,
        implicit_header: bool,
        payload_length: u8,
        crc_on: bool,
        iq_inverted: bool,
    ) -> Self {
        PacketParams { preamble_length, implicit_header, payload_length, crc_on, iq_inverted }
    }

    /// What `create_packet_params` made, in the order of the fields.
    pub fn fields(&self) -> (u16, bool, u8, bool, bool) {
        (self.preamble_length, self.implicit_header, self.payload_length, self.crc_on, self.iq_inverted)
    }

    /// The Rust's own check of a payload's length, which stands beside the operations.
    pub fn check_payload_length(length: usize) -> Result<(), RadioError> {
        PacketParams::as_given(0, false, 0, false, false).set_payload_length(length)
    }
}
