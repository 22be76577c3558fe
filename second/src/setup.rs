//! The rules of a setup (refusal 1).

use crate::bytes::lun_number;
use crate::state::{Coordinator, TransportId, MOST_INITIATORS, MOST_UNITS};

/// Which rule a setup breaks; all are refusal 1.
#[derive(Clone, Copy, PartialEq, Eq, Debug)]
pub enum Broken {
    TransportIdCut,
    TooManyInitiators,
    TransportIdInvalid,
    TransportIdTwice,
    LunCut,
    TooManyUnits,
    LunMalformed,
    LunTwice,
}

pub fn setup(initiators: &[u8], units: &[u8]) -> Result<Coordinator, Broken> {
    let ids = transport_ids(initiators)?;
    let luns = default_luns(units)?;
    Ok(Coordinator::fresh(ids, luns))
}

/// H: a TransportID starts with 00h or 01h; nothing else of it is judged.
pub fn valid_transport_id(id: &[u8]) -> bool {
    matches!(id.first(), Some(0 | 1))
}

fn transport_ids(bytes: &[u8]) -> Result<Vec<TransportId>, Broken> {
    let mut ids = Vec::new();
    for chunk in bytes.chunks(24) {
        let id = TransportId::try_from(chunk).map_err(|_| Broken::TransportIdCut)?;
        if !valid_transport_id(&id) {
            return Err(Broken::TransportIdInvalid);
        }
        if ids.contains(&id) {
            return Err(Broken::TransportIdTwice);
        }
        if ids.len() == MOST_INITIATORS {
            return Err(Broken::TooManyInitiators);
        }
        ids.push(id);
    }
    Ok(ids)
}

fn default_luns(bytes: &[u8]) -> Result<Vec<u8>, Broken> {
    let mut luns = Vec::new();
    for chunk in bytes.chunks(8) {
        if chunk.len() < 8 {
            return Err(Broken::LunCut);
        }
        let nn = lun_number(chunk).ok_or(Broken::LunMalformed)?;
        if luns.contains(&nn) {
            return Err(Broken::LunTwice);
        }
        if luns.len() == MOST_UNITS {
            return Err(Broken::TooManyUnits);
        }
        luns.push(nn);
    }
    Ok(luns)
}
