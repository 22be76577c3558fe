//! The access controls coordinator of one SCSI target: it "takes ACCESS CONTROL IN (86h) and
//! ACCESS CONTROL OUT (87h), keeps the ACL, enrolments, proxy tokens and proxy LUNs, says which
//! unit a LUN opens for an initiator, and writes a reach list."
//!
//! These are safe functions over the proved C library (include/oberkosz.h). Every call has a
//! defined answer for every input, so nothing is to be checked before calling: a refusal of
//! the house gives its number, changes no state and writes no byte, and a CHECK CONDITION
//! changes nothing either.
//!
//! ```
//! use oberkosz::Coordinator;
//!
//! // one TransportID (Fibre Channel), and one unit at default LUN 5
//! let shelf = Coordinator::setup(&[0; 24], &[0, 5, 0, 0, 0, 0, 0, 0]).unwrap();
//! // access controls are off: each host finds each unit at its default LUN
//! assert_eq!(shelf.route(0, 0x0005_0000_0000_0000), Ok(0));
//! ```

mod raw;

use std::fmt;

/// A buffer of so many bytes is never too short for a command.
pub const REPORT_BYTES: usize = 11916;
/// A buffer of so many bytes is never too short for a reach list.
pub const REACH_BYTES: usize = 4232;

/// The house refusals, in the order in which they are tested.
#[derive(Clone, Copy, Debug, PartialEq, Eq)]
#[repr(u8)]
pub enum Refusal {
    /// "setup breaks the rules"
    BadSetup = 1,
    /// "the state handed in breaks a standing rule"; no [`Coordinator`] does
    BadState = 2,
    /// "no such initiator"
    NoInitiator = 3,
    /// "the CDB is not 16 bytes"
    BadCdb = 4,
    /// "parameter bytes given differ in number from CDB bytes 10-13 (OUT), or from 0 (any other
    /// operation code)"
    BadParameters = 5,
    /// "the command would be GOOD, or the reach list made, but the lent buffer is shorter than
    /// the bytes to deliver"
    ShortBuffer = 6,
}

impl Refusal {
    fn numbered(number: u8) -> Refusal {
        use Refusal::*;
        let all = [
            BadSetup,
            BadState,
            NoInitiator,
            BadCdb,
            BadParameters,
            ShortBuffer,
        ];
        all.into_iter()
            .find(|refusal| *refusal as u8 == number)
            .unwrap_or_else(|| panic!("the library has no refusal {number}"))
    }
}

/// "The sense is always 18 bytes, fixed format."
#[derive(Clone, Copy, Debug, PartialEq, Eq)]
pub struct Sense(pub [u8; 18]);

impl Sense {
    /// The code and its qualifier, as 20h/0Bh for a clash.
    pub fn code(&self) -> (u8, u8) {
        (self.0[12], self.0[13])
    }
}

/// Why an answer is not GOOD.
#[derive(Clone, Copy, Debug, PartialEq, Eq)]
pub enum Fault {
    /// CHECK CONDITION, with its sense
    Check(Sense),
    /// a refusal of the house: no SCSI status
    Refused(Refusal),
}

impl fmt::Display for Fault {
    fn fmt(&self, f: &mut fmt::Formatter) -> fmt::Result {
        match self {
            Fault::Check(sense) => {
                let (code, qualifier) = sense.code();
                write!(f, "CHECK CONDITION {code:02X}h/{qualifier:02X}h")
            }
            Fault::Refused(refusal) => write!(f, "refusal {}", *refusal as u8),
        }
    }
}

impl std::error::Error for Fault {}

impl raw::Values {
    /// The value of a call, if its status is GOOD.
    fn good<T>(&self, value: T) -> Result<T, Fault> {
        match self.status {
            raw::GOOD => Ok(value),
            raw::CHECK_CONDITION => Err(Fault::Check(Sense(self.sense))),
            _ => Err(Fault::Refused(Refusal::numbered(self.number))),
        }
    }
}

/// A coordinator. It comes from the library alone and only the library changes it, so it
/// breaks no standing rule: that is proved of every state that the library hands back.
#[derive(Clone, PartialEq, Eq)]
pub struct Coordinator(raw::State);

/// The coordinator without initiators and units, which a refused setup leaves.
impl Default for Coordinator {
    fn default() -> Coordinator {
        Coordinator(raw::setup(&[], &[]).state)
    }
}

/// How much stands in each table; never the key.
impl fmt::Debug for Coordinator {
    fn fmt(&self, f: &mut fmt::Formatter) -> fmt::Result {
        f.debug_struct("Coordinator")
            .field("enabled", &(self.0.enabled == 1))
            .field("initiators", &self.0.initiators.count)
            .field("units", &self.0.units.count)
            .field("aces", &self.0.acl.count)
            .field("tokens", &self.0.tokens.count)
            .field("proxy_luns", &self.0.proxies.count)
            .finish_non_exhaustive()
    }
}

impl Coordinator {
    /// A new coordinator: the initiators' TransportIDs one after the other, 24 bytes each, and
    /// the units' default LUNs, 8 bytes each. "A fresh coordinator is disabled and starts with
    /// every table empty."
    ///
    /// # Panics
    /// If the library that is linked has another layout than this crate.
    pub fn setup(ids: &[u8], luns: &[u8]) -> Result<Coordinator, Fault> {
        let outcome = raw::setup(ids, luns);
        outcome.values.good(Coordinator(outcome.state))
    }

    /// An initiator sends a CDB with the parameter bytes `list`; `random` becomes the token if
    /// the command is REQUEST PROXY TOKEN. How many bytes of `reply`, from its first on, are
    /// the data; the rest of it keeps its bytes.
    pub fn command(
        &mut self,
        initiator: usize,
        cdb: &[u8],
        list: &[u8],
        random: u64,
        reply: &mut [u8],
    ) -> Result<usize, Fault> {
        let outcome = raw::command(&self.0, initiator, cdb, list, random, reply);
        self.0 = outcome.state;
        outcome.values.good(outcome.delivered)
    }

    /// "A link event told by the host turns that initiator from enrolled to pending."
    pub fn link_event(&mut self, initiator: usize) -> Result<(), Fault> {
        let outcome = raw::link_event(&self.0, initiator);
        self.0 = outcome.state;
        outcome.values.good(())
    }

    /// The reach list: how many bytes of `reply` it takes.
    pub fn reach(&self, reply: &mut [u8]) -> Result<usize, Fault> {
        let outcome = raw::reach(&self.0, reply);
        outcome.values.good(outcome.delivered)
    }

    /// The unit that a LUN, its eight bytes as one big-endian number, opens for an initiator.
    /// The standing rules are tested first.
    pub fn route(&self, initiator: usize, lun: u64) -> Result<u8, Fault> {
        let opening = raw::route(&self.0, initiator, lun);
        opening.values.good(opening.unit)
    }

    /// The same without that test, for each command to a unit.
    pub fn route_standing(&self, initiator: usize, lun: u64) -> Result<u8, Fault> {
        // SAFETY: the field is private, and set by nothing but what the library hands back.
        let opening = unsafe { raw::route_standing(&self.0, initiator, lun) };
        opening.values.good(opening.unit)
    }
}

#[cfg(test)]
mod tests;
