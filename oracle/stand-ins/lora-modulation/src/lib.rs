//! Stands in for `lora-modulation`: three enums and the bandwidths in hertz, which are taken from that crate's text.
#![no_std]

#[derive(Clone, Copy, Debug, PartialEq)]
pub enum SpreadingFactor {
    _5,
    _6,
    _7,
    _8,
    _9,
    _10,
    _11,
    _12,
}

#[derive(Clone, Copy, Debug, PartialEq)]
pub enum CodingRate {
    _4_5,
    _4_6,
    _4_7,
    _4_8,
}

#[derive(Clone, Copy, Debug, PartialEq)]
pub enum Bandwidth {
    _7KHz,
    _10KHz,
    _15KHz,
    _20KHz,
    _31KHz,
    _41KHz,
    _62KHz,
    _125KHz,
    _250KHz,
    _500KHz,
}

impl Bandwidth {
    pub const fn hz(self) -> u32 {
        match self {
            Bandwidth::_7KHz => 7_810,
            Bandwidth::_10KHz => 10_420,
            Bandwidth::_15KHz => 15_630,
            Bandwidth::_20KHz => 20_830,
            Bandwidth::_31KHz => 31_250,
            Bandwidth::_41KHz => 41_670,
            Bandwidth::_62KHz => 62_500,
            Bandwidth::_125KHz => 125_000,
            Bandwidth::_250KHz => 250_000,
            Bandwidth::_500KHz => 500_000,
        }
    }
}

impl From<Bandwidth> for u32 {
    fn from(bandwidth: Bandwidth) -> u32 {
        bandwidth.hz()
    }
}
