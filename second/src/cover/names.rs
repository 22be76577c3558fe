//! The words of item names.

use crate::coordinator::Action;
use crate::fault::Fault;
use crate::ground::{Clash, Ground};
use crate::journal::Expected;
use crate::setup::Broken;

pub fn action(action: Action) -> &'static str {
    match action {
        Action::ReportAcl => "report-acl",
        Action::RequestProxyToken => "request-proxy-token",
        Action::ManageAcl => "manage-acl",
        Action::Disable => "disable",
        Action::Enroll => "enroll",
        Action::Cancel => "cancel",
        Action::RevokeProxyToken => "revoke-proxy-token",
        Action::RevokeAllProxyTokens => "revoke-all-proxy-tokens",
        Action::AssignProxyLun => "assign-proxy-lun",
        Action::ReleaseProxyLun => "release-proxy-lun",
    }
}

pub fn on(enabled: bool) -> &'static str {
    if enabled {
        "on"
    } else {
        "off"
    }
}

pub fn code(fault: Fault) -> String {
    let (code, qualifier) = fault.code();
    format!("{code:02X}h/{qualifier:02X}h")
}

pub fn letter(ground: Ground) -> char {
    char::from(ground.letter())
}

pub fn clash(one: Ground, other: Ground, clash: Clash) -> String {
    let kind = match clash {
        Clash::OneLunTwoUnits => "one-lun",
        Clash::OneUnitTwoLuns => "one-unit",
    };
    format!("{}-{}.{kind}", letter(one), letter(other))
}

pub fn expected(expected: Expected) -> &'static str {
    match expected {
        Expected::Statement => "statement",
        Expected::Bytes => "bytes",
        Expected::List => "list",
        Expected::Number => "number",
        Expected::Buffer => "buffer",
        Expected::Digits => "digits",
        Expected::End => "end",
    }
}

pub fn broken(broken: Broken) -> &'static str {
    match broken {
        Broken::TransportIdCut => "transportid-cut",
        Broken::TooManyInitiators => "17-initiators",
        Broken::TransportIdInvalid => "transportid-invalid",
        Broken::TransportIdTwice => "transportid-twice",
        Broken::LunCut => "lun-cut",
        Broken::TooManyUnits => "33-units",
        Broken::LunMalformed => "lun-malformed",
        Broken::LunTwice => "lun-twice",
    }
}

/// A fault's name, without the clashes, which have items of their own.
pub fn fault(fault: Fault) -> String {
    let name = match fault {
        Fault::OperationCode => "operation-code",
        Fault::ServiceAction => "service-action",
        Fault::CancelWithList => "cancel-with-list",
        Fault::ShortAllocation => "short-allocation",
        Fault::ListLength => "list-length",
        Fault::PageHeadCut => "page-head-cut",
        Fault::PageBodyCut => "page-body-cut",
        Fault::WrongKey => "wrong-key",
        Fault::Generation => "generation",
        Fault::PageCode => "page-code",
        Fault::IdentifierType => "identifier-type",
        Fault::IdentifierLength => "identifier-length",
        Fault::TransportId => "transportid",
        Fault::AccessMode => "access-mode",
        Fault::PageLength(code) => return format!("page-length-{code:02X}h"),
        Fault::TwoGrants => "two-grants",
        Fault::Pending => "pending",
        Fault::NoAce => "no-ace",
        Fault::OtherAccessId => "other-accessid",
        Fault::LunForm => "lun-form",
        Fault::NoSuchDefaultLun => "no-such-default-lun",
        Fault::LunOpensNothing => "lun-opens-nothing",
        Fault::LunTaken(ground) => return format!("lun-taken-by-{}", letter(ground)),
        Fault::NoProxyLun => "no-proxy-lun",
        Fault::TokenNotLive => "token-not-live",
        Fault::Clash(..) => "clash",
        Fault::TooManyAces => "33-aces",
        Fault::TooManyLuacds => "17-luacds",
        Fault::TokensFull => "tokens-full",
        Fault::NumberZero => "number-zero",
        Fault::NumberLive => "number-live",
        Fault::ProxyLunsFull => "proxy-luns-full",
        Fault::NotRouted => "not-routed",
    };
    name.to_string()
}
