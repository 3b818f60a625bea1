//! The list in the making: lines, most of them calls.
use oracle::maker::{Image, Maker};
use oracle::{print_call, Board, Operation, Variant};

pub struct List {
    pub maker: Maker,
    pub lines: Vec<Vec<u8>>,
}

/// A board by its variant and flags: tcxo_used, tx_boost, rx_boost.
pub fn board(variant: Variant, flags: [bool; 3]) -> Board {
    let [tcxo_used, tx_boost, rx_boost] = flags;
    Board { variant, tcxo_used, tx_boost, rx_boost }
}

pub fn plain(variant: Variant) -> Board {
    board(variant, [false; 3])
}

pub const VARIANTS: [Variant; 2] = [Variant::Sx1272, Variant::Sx1276];

/// Every pair of one of these and one of those.
pub fn pairs<A: Copy, B: Copy>(these: &[A], those: &[B]) -> Vec<(A, B)> {
    these.iter().flat_map(|&this| those.iter().map(move |&that| (this, that))).collect()
}

impl List {
    /// Adds the call as the maker has it.
    pub fn add(&mut self) {
        self.lines.push(print_call(&self.maker.call).into_bytes());
    }

    /// Adds a call that is lent what it wants.
    pub fn call(&mut self, board: Board, operation: Operation, arguments: &[i128], image: Image) {
        self.maker.make(board, operation, arguments, image);
        self.add();
    }

    /// Adds a call over an image in which some registers hold these values.
    pub fn over(&mut self, board: Board, operation: Operation, arguments: &[i128], held: &[(usize, u8)]) {
        self.maker.make(board, operation, arguments, Image::Zero);
        for (address, value) in held {
            self.maker.call.image[*address] = *value;
        }
        self.add();
    }
}
