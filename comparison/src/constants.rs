//! Named constants, variants in their order, and defaults.

use crate::{names, shown};
use etherparse::{IpDscp, IpEcn, IpFragOffset, IpNumber, Ipv4Header, Ipv4Options};
use etherparse::{Ipv6FlowLabel, Ipv6Header};
use std::fmt::Debug;

pub fn answer(operation: &str, words: &[&str]) -> Option<String> {
    if !words.is_empty() {
        return None;
    }
    match operation {
        "const.fields" => Some(fields()),
        "const.headers" => Some(headers()),
        "const.dscp" => Some(by_number(names::DSCP)),
        "const.ipnum" => Some(by_number(names::IP_NUMBERS_OF_TYPE)),
        "const.ip_number" => Some(by_number(names::IP_NUMBERS_OF_MODULE)),
        "const.layers" => Some(in_order(names::LAYERS)),
        "const.value_types" => Some(in_order(names::VALUE_TYPES)),
        "const.known" => {
            let known = names::KNOWN.iter().map(|row| (row.0, u8::from(row.1)));
            Some(by_number(&known.collect::<Vec<_>>()))
        }
        "default.fields" => Some(format!(
            "dscp={} frag={} flow={} ecn={} ipnum={} options={}",
            IpDscp::default(),
            IpFragOffset::default(),
            Ipv6FlowLabel::default(),
            IpEcn::default(),
            IpNumber::default().0,
            shown::bytes(Ipv4Options::default().as_slice())
        )),
        "default.v4" => Some(shown::ipv4_fields(&Ipv4Header::default())),
        "default.v6" => Some(shown::ipv6_fields(&Ipv6Header::default())),
        _ => None,
    }
}

// `NAME=number`, by the numbers, and by the names where these are the same.
fn by_number(table: &[(&str, u8)]) -> String {
    let mut table = table.to_vec();
    table.sort_by_key(|row| (row.1, row.0));
    let rows: Vec<String> = table.iter().map(|row| format!("{}={}", row.0, row.1)).collect();
    rows.join(" ")
}

fn in_order<T: Ord + Copy + Debug>(table: &[(&str, T)]) -> String {
    let mut variants: Vec<T> = table.iter().map(|row| row.1).collect();
    variants.sort();
    let names: Vec<String> = variants.iter().map(|variant| format!("{variant:?}")).collect();
    names.join(" ")
}

// `PATH=value` for each constant of these paths.
macro_rules! values {
    ($($type:ident::$name:ident)*) => {
        [$(format!("{}::{}={}", stringify!($type), stringify!($name), $type::$name)),*].join(" ")
    };
}

#[allow(deprecated)]
fn fields() -> String {
    values!(
        IpDscp::ZERO IpDscp::MAX_U8 IpDscp::MAX
        IpFragOffset::ZERO IpFragOffset::MAX_U16
        Ipv6FlowLabel::ZERO Ipv6FlowLabel::MAX_U32
        IpEcn::ZERO IpEcn::ONE IpEcn::TWO IpEcn::THREE IpEcn::TRHEE IpEcn::MAX_U8
        Ipv4Options::MAX_LEN
    )
}

#[allow(deprecated)]
fn headers() -> String {
    values!(
        Ipv4Header::MIN_LEN Ipv4Header::MIN_LEN_U16 Ipv4Header::SERIALIZED_SIZE Ipv4Header::MAX_LEN
        Ipv6Header::LEN Ipv6Header::SERIALIZED_SIZE
    )
}
