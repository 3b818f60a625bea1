//! Stands in for `embedded-hal-async`: the traits that the driver uses, and of these only what it calls.
#![no_std]
#![allow(async_fn_in_trait)]

pub mod delay {
    pub trait DelayNs {
        async fn delay_ns(&mut self, ns: u32);
    }
}

pub mod spi {
    /// One part of a transaction: bytes that the chip is to be told, or room for what it answers.
    pub enum Operation<'a, Word: 'static> {
        Read(&'a mut [Word]),
        Write(&'a [Word]),
    }

    pub trait ErrorType {
        type Error;
    }

    pub trait SpiDevice<Word: Copy + 'static = u8>: ErrorType {
        async fn transaction(&mut self, operations: &mut [Operation<'_, Word>]) -> Result<(), Self::Error>;

        async fn write(&mut self, buf: &[Word]) -> Result<(), Self::Error> {
            self.transaction(&mut [Operation::Write(buf)]).await
        }
    }
}
