//! The four bounded fields, known code points and numbers of protocols.

use crate::{arguments, shown};
use etherparse::err::ValueTooBigError;
use etherparse::{IpDscp, IpDscpKnown, IpEcn, IpFragOffset, IpNumber, Ipv6FlowLabel, Ipv6Header};
use std::fmt::{Debug, Display};
use std::hash::Hash;

/// A number that becomes a field, by `try_new` or by `TryFrom`.
pub fn answer(field: &str, call: &str, words: &[&str]) -> Option<String> {
    let [word] = words else { return None };
    let by_new = match call {
        "new" => true,
        "try" => false,
        _ => return None,
    };
    match field {
        "dscp" => {
            let value = arguments::number(word)?;
            let result = if by_new { IpDscp::try_new(value) } else { IpDscp::try_from(value) };
            taken(result, |dscp| held(dscp.value(), u8::from(dscp), &dscp))
        }
        "frag" => {
            let value = arguments::number(word)?;
            let result =
                if by_new { IpFragOffset::try_new(value) } else { IpFragOffset::try_from(value) };
            taken(result, |offset| {
                let number = held(offset.value(), u16::from(offset), &offset);
                format!("{number} bytes={}", offset.byte_offset())
            })
        }
        "flow" => {
            let value = arguments::number(word)?;
            let result =
                if by_new { Ipv6FlowLabel::try_new(value) } else { Ipv6FlowLabel::try_from(value) };
            taken(result, |label| held(label.value(), u32::from(label), &label))
        }
        "ecn" => {
            let value = arguments::number(word)?;
            let result = if by_new { IpEcn::try_new(value) } else { IpEcn::try_from(value) };
            taken(result, |ecn| {
                format!("{} variant={ecn:?}", held(ecn.value(), u8::from(ecn), &ecn))
            })
        }
        _ => None,
    }
}

fn taken<F, N>(
    result: Result<F, ValueTooBigError<N>>,
    shown_as: impl Fn(F) -> String,
) -> Option<String>
where
    N: Sized + Clone + Display + Debug + Eq + PartialEq + Hash,
{
    Some(match result {
        Ok(field) => shown_as(field),
        Err(error) => shown::too_big(&error),
    })
}

// The number by `value`, by `From` and as a text.
fn held(value: impl Display, into: impl Display, text: &impl Display) -> String {
    format!("ok value={value} into={into} text={text}")
}

/// Comparisons of fields, known code points and numbers of protocols.
pub fn answer_number(operation: &str, words: &[&str]) -> Option<String> {
    match (operation, words) {
        ("field.cmp", [field, a, b]) => compared(field, a, b),
        ("known", [word]) => known(arguments::dscp(word)?),
        ("known.cmp", [a, b]) => {
            let a = IpDscpKnown::try_from_ip_dscp(arguments::dscp(a)?).ok()?;
            let b = IpDscpKnown::try_from_ip_dscp(arguments::dscp(b)?).ok()?;
            Some(shown::comparison(&a, &b))
        }
        ("ipnum", [word]) => {
            let number = IpNumber::from(arguments::number::<u8>(word)?);
            Some(format!(
                "value={} into={} ext={} skippable={}",
                number.0,
                u8::from(number),
                number.is_ipv6_ext_header_value(),
                Ipv6Header::is_skippable_header_extension(number)
            ))
        }
        _ => None,
    }
}

fn compared(field: &str, a: &str, b: &str) -> Option<String> {
    use arguments::{dscp, ecn, flow_label, fragment_offset, ip_number};
    Some(match field {
        "dscp" => shown::comparison(&dscp(a)?, &dscp(b)?),
        "frag" => shown::comparison(&fragment_offset(a)?, &fragment_offset(b)?),
        "flow" => shown::comparison(&flow_label(a)?, &flow_label(b)?),
        "ecn" => shown::comparison(&ecn(a)?, &ecn(b)?),
        "ipnum" => shown::comparison(&ip_number(a)?, &ip_number(b)?),
        _ => return None,
    })
}

fn known(dscp: IpDscp) -> Option<String> {
    let result = IpDscpKnown::try_from_ip_dscp(dscp);
    assert!(result == IpDscpKnown::try_from(dscp));
    Some(match result {
        Ok(known) => {
            let dscp = IpDscp::from(known).value();
            format!("ok variant={known:?} u8={} dscp={dscp}", u8::from(known))
        }
        Err(error) => format!("err unknown value={}", error.value),
    })
}
