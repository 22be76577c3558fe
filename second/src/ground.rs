//! The grounds of rows and the kinds of clashes: small words that the rows, the
//! faults and the counts all need, so that none of them needs another for them.

/// The ground of a row. The derived order is the order of the ASCII letters.
#[derive(Clone, Copy, PartialEq, Eq, PartialOrd, Ord, Debug)]
pub enum Ground {
    A,
    O,
    T,
    W,
    X,
}

impl Ground {
    pub fn letter(self) -> u8 {
        match self {
            Ground::A => b'A',
            Ground::O => b'O',
            Ground::T => b'T',
            Ground::W => b'W',
            Ground::X => b'X',
        }
    }
}

/// The two ways in which two rows of one initiator clash.
#[derive(Clone, Copy, PartialEq, Eq, Debug)]
pub enum Clash {
    OneLunTwoUnits,
    OneUnitTwoLuns,
}
