//! The mock: a chip's registers and FIFO as document 01 has them, with a bus and pins that log every access.
use lora_phy::mod_params::RadioError;
use lora_phy::mod_traits::InterfaceVariant;
use lora_phy::spi::{ErrorType, Operation, SpiDevice};
use lora_phy::DelayNs;
use std::cell::RefCell;
use std::convert::Infallible;

pub const IMAGE: usize = 128;
pub const FIFO: usize = 256;
/// More records than any operation makes.
const RECORDS: usize = 64;

const REG_FIFO: u8 = 0x00;
const REG_FIFO_ADDR_PTR: usize = 0x0d;
const REG_IRQ_FLAGS: usize = 0x12;
/// An address with this bit is written to, one without it is read.
const WRITE: u8 = 0x80;

pub const KIND_READ: u8 = 0;
pub const KIND_WRITE: u8 = 1;
pub const KIND_FIFO_READ: u8 = 2;
pub const KIND_FIFO_WRITE: u8 = 3;
pub const KIND_SWITCH: u8 = 4;
pub const KIND_RESET: u8 = 5;
pub const KIND_SLEEP_WRITE: u8 = 6;

pub struct Chip {
    pub image: [u8; IMAGE],
    pub fifo: [u8; FIFO],
    log: [u8; 3 * RECORDS],
    used: usize,
    /// Where the kind of the last record stands, if that is a register write which nobody has waited for yet.
    unwaited: Option<usize>,
}

impl Chip {
    pub fn new(image: [u8; IMAGE], fifo: [u8; FIFO]) -> Chip {
        Chip { image, fifo, log: [0; 3 * RECORDS], used: 0, unwaited: None }
    }

    /// The records made so far.
    pub fn log(&self) -> &[u8] {
        &self.log[..self.used]
    }

    /// The records, to be put otherwise where the sheet wants it.
    pub fn records_mut(&mut self) -> impl Iterator<Item = &mut [u8]> {
        self.log[..self.used].chunks_exact_mut(3)
    }

    /// Forgets the records; registers and FIFO stay.
    pub fn rewind(&mut self) {
        self.used = 0;
        self.unwaited = None;
    }

    fn append(&mut self, kind: u8, address: u8, data: u8) {
        assert!(self.used < self.log.len(), "mock: more than {RECORDS} records");
        self.log[self.used..self.used + 3].copy_from_slice(&[kind, address, data]);
        self.unwaited = None;
        self.used += 3;
    }

    fn read(&mut self, address: u8) -> u8 {
        let value = self.image[address as usize];
        self.append(KIND_READ, address, value);
        value
    }

    /// The sleep flag is not seen on the bus: it shows as a write that nobody waits for, so that is what a write is
    /// taken for until somebody does.
    fn write(&mut self, address: u8, value: u8) {
        self.append(KIND_SLEEP_WRITE, address, value);
        self.unwaited = Some(self.used - 3);
        let register = &mut self.image[address as usize];
        *register = if address as usize == REG_IRQ_FLAGS { *register & !value } else { value };
    }

    fn waited(&mut self) {
        if let Some(kind) = self.unwaited.take() {
            self.log[kind] = KIND_WRITE;
        }
    }

    /// The place in the FIFO that comes next, and the pointer on to the one after it.
    fn place(&mut self) -> usize {
        let pointer = &mut self.image[REG_FIFO_ADDR_PTR];
        let place = *pointer;
        *pointer = place.wrapping_add(1);
        place as usize
    }

    fn fifo_read(&mut self, bytes: &mut [u8]) {
        let count = u8::try_from(bytes.len()).expect("mock: a burst of more than 255 bytes");
        self.append(KIND_FIFO_READ, 0, count);
        for byte in bytes {
            *byte = self.fifo[self.place()];
        }
    }

    fn fifo_write(&mut self, bytes: &[u8]) {
        let count = u8::try_from(bytes.len()).expect("mock: a burst of more than 255 bytes");
        self.append(KIND_FIFO_WRITE, 0, count);
        for byte in bytes {
            let place = self.place();
            self.fifo[place] = *byte;
        }
    }

    /// The four shapes of transaction that the driver makes.
    fn transaction(&mut self, parts: &mut [Operation<'_, u8>]) {
        match parts {
            [Operation::Write([address, value])] if address & WRITE != 0 => self.write(address & !WRITE, *value),
            [Operation::Write([address]), Operation::Write(bytes)] if *address == WRITE | REG_FIFO => {
                self.fifo_write(bytes)
            }
            [Operation::Write([address]), Operation::Read(bytes)] if *address == REG_FIFO => self.fifo_read(bytes),
            [Operation::Write([address]), Operation::Read(bytes)] if address & WRITE == 0 && bytes.len() == 1 => {
                bytes[0] = self.read(*address)
            }
            _ => panic!("mock: a transaction that no operation makes"),
        }
    }
}

/// The bus.
pub struct Spi<'a>(pub &'a RefCell<Chip>);

impl ErrorType for Spi<'_> {
    type Error = Infallible;
}

impl SpiDevice<u8> for Spi<'_> {
    async fn transaction(&mut self, parts: &mut [Operation<'_, u8>]) -> Result<(), Infallible> {
        self.0.borrow_mut().transaction(parts);
        Ok(())
    }
}

/// The pins: reset, busy and the RF switch.
pub struct Pins<'a>(pub &'a RefCell<Chip>);

impl Pins<'_> {
    fn switch(&mut self, position: u8) -> Result<(), RadioError> {
        self.0.borrow_mut().append(KIND_SWITCH, 0, position);
        Ok(())
    }
}

impl InterfaceVariant for Pins<'_> {
    async fn reset(&mut self, _delay: &mut impl DelayNs) -> Result<(), RadioError> {
        self.0.borrow_mut().append(KIND_RESET, 0, 0);
        Ok(())
    }

    async fn wait_on_busy(&mut self) -> Result<(), RadioError> {
        self.0.borrow_mut().waited();
        Ok(())
    }

    async fn await_irq(&mut self) -> Result<(), RadioError> {
        panic!("mock: no operation awaits an interrupt")
    }

    async fn enable_rf_switch_rx(&mut self) -> Result<(), RadioError> {
        self.switch(1)
    }

    async fn enable_rf_switch_tx(&mut self) -> Result<(), RadioError> {
        self.switch(2)
    }

    async fn disable_rf_switch(&mut self) -> Result<(), RadioError> {
        self.switch(0)
    }
}

pub struct NoDelay;

impl DelayNs for NoDelay {
    async fn delay_ns(&mut self, _ns: u32) {}
}

#[cfg(test)]
mod tests {
    use super::*;

    fn chip() -> Chip {
        Chip::new([0; IMAGE], std::array::from_fn(|place| place as u8))
    }

    fn read(chip: &mut Chip, address: u8, bytes: &mut [u8]) {
        chip.transaction(&mut [Operation::Write(&[address]), Operation::Read(bytes)]);
        chip.waited();
    }

    fn write(chip: &mut Chip, address: u8, value: u8) {
        chip.transaction(&mut [Operation::Write(&[address | WRITE, value])]);
    }

    #[test]
    fn a_write_is_stored_and_read_back() {
        let mut chip = chip();
        write(&mut chip, 0x39, 0x34);
        chip.waited();
        let mut byte = [0];
        read(&mut chip, 0x39, &mut byte);
        assert_eq!(byte, [0x34]);
        assert_eq!(chip.log(), [KIND_WRITE, 0x39, 0x34, KIND_READ, 0x39, 0x34]);
    }

    #[test]
    fn a_write_that_nobody_waits_for_has_the_sleep_flag() {
        let mut chip = chip();
        write(&mut chip, 0x01, 0x80);
        assert_eq!(chip.log(), [KIND_SLEEP_WRITE, 0x01, 0x80]);
        assert_eq!(chip.image[0x01], 0x80);
        // A wait after the next access is not for this write.
        read(&mut chip, 0x42, &mut [0]);
        assert_eq!(chip.log(), [KIND_SLEEP_WRITE, 0x01, 0x80, KIND_READ, 0x42, 0x00]);
    }

    #[test]
    fn a_one_clears_an_interrupt_flag() {
        let mut chip = chip();
        for (held, written, left) in [(0xff, 0x00, 0xff), (0xff, 0x48, 0xb7), (0x0f, 0xf1, 0x0e), (0x55, 0xff, 0x00)] {
            chip.image[REG_IRQ_FLAGS] = held;
            write(&mut chip, 0x12, written);
            assert_eq!(chip.image[REG_IRQ_FLAGS], left);
        }
    }

    #[test]
    fn the_fifo_goes_round() {
        let mut chip = chip();
        chip.image[REG_FIFO_ADDR_PTR] = 254;
        let mut bytes = [0; 4];
        read(&mut chip, REG_FIFO, &mut bytes);
        assert_eq!((bytes, chip.image[REG_FIFO_ADDR_PTR]), ([254, 255, 0, 1], 2));
        chip.image[REG_FIFO_ADDR_PTR] = 255;
        chip.transaction(&mut [Operation::Write(&[WRITE]), Operation::Write(&[7, 8])]);
        assert_eq!((chip.fifo[255], chip.fifo[0], chip.image[REG_FIFO_ADDR_PTR]), (7, 8, 1));
        chip.transaction(&mut [Operation::Write(&[WRITE]), Operation::Write(&[])]);
        assert_eq!(chip.log(), [KIND_FIFO_READ, 0, 4, KIND_FIFO_WRITE, 0, 2, KIND_FIFO_WRITE, 0, 0]);
    }

    #[test]
    fn the_pins_are_logged_and_change_no_byte() {
        let cell = RefCell::new(chip());
        let mut pins = Pins(&cell);
        (0..3).for_each(|position| pins.switch(position).unwrap());
        cell.borrow_mut().append(KIND_RESET, 0, 0);
        let chip = cell.into_inner();
        assert_eq!(chip.log(), [KIND_SWITCH, 0, 0, KIND_SWITCH, 0, 1, KIND_SWITCH, 0, 2, KIND_RESET, 0, 0]);
        assert_eq!(chip.image, [0; IMAGE]);
    }

    #[test]
    #[should_panic(expected = "a transaction that no operation makes")]
    fn a_burst_of_registers_is_not_known() {
        read(&mut chip(), 0x06, &mut [0; 3]);
    }
}
