//! What crosses to the library, as include/oberkosz.h has it, and the calls; nothing else.

use std::mem::{offset_of, size_of};

pub const GOOD: u8 = 0x00;
pub const CHECK_CONDITION: u8 = 0x02;

#[repr(C)]
#[derive(Clone, Copy, PartialEq, Eq)]
pub struct Luacd {
    pub lun: u16,
    pub unit: u8,
}

#[repr(C)]
#[derive(Clone, Copy, PartialEq, Eq)]
pub struct Ace {
    pub kind: u8,
    pub extent: u8,
    pub id: [u8; 24],
    pub count: usize,
    pub luacds: [Luacd; 16],
}

#[repr(C)]
#[derive(Clone, Copy, PartialEq, Eq)]
pub struct Acl {
    pub count: usize,
    pub items: [Ace; 32],
}

#[repr(C)]
#[derive(Clone, Copy, PartialEq, Eq)]
pub struct Token {
    pub number: u64,
    pub unit: u8,
    pub requester: u8,
    pub lun: u16,
}

#[repr(C)]
#[derive(Clone, Copy, PartialEq, Eq)]
pub struct Tokens {
    pub count: usize,
    pub items: [Token; 32],
}

#[repr(C)]
#[derive(Clone, Copy, PartialEq, Eq)]
pub struct ProxyLun {
    pub initiator: u8,
    pub lun: u16,
    pub token: u64,
}

#[repr(C)]
#[derive(Clone, Copy, PartialEq, Eq)]
pub struct ProxyLuns {
    pub count: usize,
    pub items: [ProxyLun; 32],
}

#[repr(C)]
#[derive(Clone, Copy, PartialEq, Eq)]
pub struct Initiators {
    pub count: usize,
    pub ids: [u8; 16 * 24],
    pub enrolments: [u8; 16 * 25],
}

#[repr(C)]
#[derive(Clone, Copy, PartialEq, Eq)]
pub struct Units {
    pub count: usize,
    pub luns: [u16; 32],
}

#[repr(C)]
#[derive(Clone, Copy, PartialEq, Eq)]
pub struct State {
    pub enabled: u8,
    pub generation: u32,
    pub key: u64,
    pub initiators: Initiators,
    pub units: Units,
    pub acl: Acl,
    pub tokens: Tokens,
    pub proxies: ProxyLuns,
}

#[repr(C)]
#[derive(Clone, Copy)]
pub struct Values {
    pub status: u8,
    pub number: u8,
    pub sense: [u8; 18],
}

#[repr(C)]
pub struct Outcome {
    pub state: State,
    pub values: Values,
    pub delivered: usize,
}

#[repr(C)]
pub struct Opening {
    pub unit: u8,
    pub values: Values,
}

macro_rules! layout {
    ($($name:literal $type:ident { $($field:ident)* })*) => {
        [$(
            ($name, size_of::<$type>()),
            $((concat!($name, "_", stringify!($field)), offset_of!($type, $field)),)*
        )*]
    };
}

/// The size of each struct and where its fields stand, in the order of the header's table.
pub const LAYOUT: [(&str, usize); 54] = layout! {
    "luacd" Luacd { lun unit }
    "ace" Ace { kind extent id count luacds }
    "acl" Acl { count items }
    "token" Token { number unit requester lun }
    "tokens" Tokens { count items }
    "proxy_lun" ProxyLun { initiator lun token }
    "proxy_luns" ProxyLuns { count items }
    "initiators" Initiators { count ids enrolments }
    "units" Units { count luns }
    "state" State { enabled generation key initiators units acl tokens proxies }
    "values" Values { status number sense }
    "outcome" Outcome { state values delivered }
    "opening" Opening { unit values }
};

mod calls {
    use super::{Opening, Outcome, State};

    extern "C" {
        pub fn oberkosz_setup(
            ids: *const u8,
            ids_bytes: usize,
            luns: *const u8,
            luns_bytes: usize,
        ) -> Outcome;
        pub fn oberkosz_command(
            state: State,
            initiator: usize,
            cdb: *const u8,
            cdb_bytes: usize,
            list: *const u8,
            list_bytes: usize,
            random: u64,
            reply: *mut u8,
            reply_bytes: usize,
        ) -> Outcome;
        pub fn oberkosz_link_event(state: State, initiator: usize) -> Outcome;
        pub fn oberkosz_reach(state: State, reply: *mut u8, reply_bytes: usize) -> Outcome;
        pub fn oberkosz_route(state: State, initiator: usize, lun: u64) -> Opening;
        pub fn oberkosz_route_standing(state: State, initiator: usize, lun: u64) -> Opening;
        pub fn oberkosz_layout(entry: usize) -> usize;
    }
}

// SAFETY, of each call below: a slice gives a pointer that is not null and the number of bytes
// behind it, and a `&mut` one overlaps nothing else that is handed in. The library is proved
// to answer every such call, to write to the reply alone and to keep no pointer.

/// Whether the library has these numbers, and no more.
pub fn fits(layout: &[(&str, usize)]) -> bool {
    let has = |entry| unsafe { calls::oberkosz_layout(entry) };
    let same = |(entry, (_, number)): (usize, &(&str, usize))| has(entry) == *number;
    layout.iter().enumerate().all(same) && has(layout.len()) == 0
}

/// Every state comes from here, so that none crosses to a library with another layout.
pub fn setup(ids: &[u8], luns: &[u8]) -> Outcome {
    assert!(
        fits(&LAYOUT),
        "the library's sizes and offsets are not those of this crate"
    );
    unsafe { calls::oberkosz_setup(ids.as_ptr(), ids.len(), luns.as_ptr(), luns.len()) }
}

pub fn command(
    state: &State,
    initiator: usize,
    cdb: &[u8],
    list: &[u8],
    random: u64,
    reply: &mut [u8],
) -> Outcome {
    unsafe {
        calls::oberkosz_command(
            *state,
            initiator,
            cdb.as_ptr(),
            cdb.len(),
            list.as_ptr(),
            list.len(),
            random,
            reply.as_mut_ptr(),
            reply.len(),
        )
    }
}

pub fn link_event(state: &State, initiator: usize) -> Outcome {
    unsafe { calls::oberkosz_link_event(*state, initiator) }
}

pub fn reach(state: &State, reply: &mut [u8]) -> Outcome {
    unsafe { calls::oberkosz_reach(*state, reply.as_mut_ptr(), reply.len()) }
}

pub fn route(state: &State, initiator: usize, lun: u64) -> Opening {
    unsafe { calls::oberkosz_route(*state, initiator, lun) }
}

/// # Safety
/// The state is one that the library handed back, unchanged.
pub unsafe fn route_standing(state: &State, initiator: usize, lun: u64) -> Opening {
    calls::oberkosz_route_standing(*state, initiator, lun)
}
