//! Why a command is answered with CHECK CONDITION, and the sense it gets.
//!
//! A fault is finer than a code of the paper's table: several faults share one
//! code. The answers need the code alone; the cover needs to know the fault.

use crate::ground::{Clash, Ground};

#[derive(Clone, Copy, PartialEq, Eq, Debug)]
pub enum Fault {
    OperationCode,
    ServiceAction,
    CancelWithList,
    ShortAllocation,
    ListLength,
    PageHeadCut,
    PageBodyCut,
    WrongKey,
    Generation,
    PageCode,
    IdentifierType,
    IdentifierLength,
    TransportId,
    AccessMode,
    PageLength(u8),
    TwoGrants,
    Pending,
    NoAce,
    OtherAccessId,
    LunForm,
    NoSuchDefaultLun,
    LunOpensNothing,
    LunTaken(Ground),
    NoProxyLun,
    TokenNotLive,
    Clash(Ground, Ground, Clash),
    TooManyAces,
    TooManyLuacds,
    TokensFull,
    NumberZero,
    NumberLive,
    ProxyLunsFull,
    NotRouted,
}

impl Fault {
    /// Code and qualifier of the paper's table.
    pub fn code(self) -> (u8, u8) {
        use Fault::*;
        match self {
            OperationCode => (0x20, 0x00),
            ServiceAction | CancelWithList | ShortAllocation => (0x24, 0x00),
            ListLength | PageHeadCut | PageBodyCut => (0x1a, 0x00),
            WrongKey => (0x20, 0x03),
            Generation | PageCode | IdentifierType | IdentifierLength => (0x26, 0x00),
            TransportId | AccessMode | PageLength(_) | TwoGrants => (0x26, 0x00),
            Pending => (0x20, 0x01),
            NoAce => (0x20, 0x02),
            OtherAccessId => (0x20, 0x08),
            LunForm | NoSuchDefaultLun | LunOpensNothing => (0x20, 0x09),
            LunTaken(_) | NoProxyLun => (0x20, 0x09),
            TokenNotLive => (0x20, 0x0a),
            Clash(..) => (0x20, 0x0b),
            TooManyAces | TooManyLuacds | TokensFull => (0x55, 0x05),
            NumberZero | NumberLive | ProxyLunsFull => (0x55, 0x05),
            NotRouted => (0x25, 0x00),
        }
    }

    /// The sense is always 18 bytes, fixed format.
    pub fn sense(self) -> [u8; 18] {
        let (code, qualifier) = self.code();
        let mut sense = [0; 18];
        sense[0] = 0x70;
        sense[2] = 0x05;
        sense[7] = 0x0a;
        sense[12] = code;
        sense[13] = qualifier;
        sense
    }
}
