//! Says which frames of a list an expression chooses.

#[path = "../include/etherparse_filter.rs"]
mod etherparse_filter;

use etherparse_filter::*;

// Ethernet frames, as hex digits.
const FRAMES: &[&str] = &[
    // a question to a name server
    "02000000000202000000000108004500001e00004000401126cd0a0000010a00000204000035000a7f396869",
    // the first segment to a web server
    "020000000002020000000001080045000028000040004006b6ccc0000201c0000202c0000050000000010000000050\
     0220004b8d0000",
    // ARP
    "020000000002020000000001080600010800060400010200000000010a0000010000000000000a000003",
    // an echo request over IPv6
    "02000000000202000000000186dd6000000000083a4020010db800000000000000000000000120010db80000000000\
     000000000000028000244500010002",
    // a segment of data over IPv6, with a tag
    "0200000000020200000000018100000586dd600000000018064020010db800000000000000000000000120010db800\
     000000000000000000000201bbc3500000000100000000501820009684000064617461",
    // a later fragment
    "02000000000202000000000108004500002c00070003401166b50a0000010a0000020102030405060708090a0b0c0d\
     0e0f101112131415161718",
];

const EXPRESSIONS: &[&str] = &[
    "tcp port 80 or udp port 53",
    "src net 10.0.0.0/8",
    "tcp and vlan 5",
    "not ip",
    "port 443 or icmp6",
    "less 60",
    "fragment",
    "tcp prot 80",
    "udp or tcp and port 22",
    "ip or mpls",
    "host",
];

fn bytes_of(digits: &str) -> Vec<u8> {
    (0..digits.len() / 2)
        .map(|i| u8::from_str_radix(&digits[2 * i..2 * i + 2], 16).unwrap())
        .collect()
}

// The filter of an expression, or the refusal.
fn compiled(expression: &str) -> Result<Filter, FilterRefusal> {
    let mut filter = Filter::uninit();
    let mut refusal = FilterRefusal::default();
    // SAFETY: the text is there, and the memory is aligned and has the size of a filter.
    let is_filter = unsafe {
        let (text, len) = (expression.as_ptr(), expression.len());
        etherparse_filter_from_text(text, len, &mut filter, &mut refusal)
    };
    if is_filter { Ok(filter) } else { Err(refusal) }
}

// The text of a refusal.
fn text_of(refusal: &FilterRefusal) -> String {
    let mut text = [0; FILTER_ERROR_TEXT_SIZE];
    // SAFETY: the buffer has that many bytes.
    let len = unsafe { etherparse_filter_error_text(refusal, text.as_mut_ptr(), text.len()) };
    String::from_utf8_lossy(&text[..len]).into_owned()
}

fn main() {
    let bytes: Vec<Vec<u8>> = FRAMES.iter().map(|digits| bytes_of(digits)).collect();
    let frames: Vec<Frame> = bytes
        .iter()
        .map(|frame| Frame {
            at: frame.as_ptr(),
            len: frame.len(),
            original_len: frame.len(),
        })
        .collect();
    for expression in EXPRESSIONS {
        let mut filter = match compiled(expression) {
            Ok(filter) => filter,
            Err(refusal) => {
                let place = refusal.place;
                println!("{expression}\n{:place$}^ {}", "", text_of(&refusal));
                continue;
            }
        };
        let mut chosen = vec![false; frames.len()];
        // SAFETY: the filter was compiled, and each list has as many items as it is said to have.
        let answers = unsafe {
            etherparse_filter_matches_batch(
                &mut filter,
                1,
                frames.as_ptr(),
                frames.len(),
                chosen.as_mut_ptr(),
                chosen.len(),
            )
        };
        let numbers: Vec<String> = (0..answers)
            .filter(|i| chosen[*i])
            .map(|i| format!(" {}", i + 1))
            .collect();
        println!("{expression}:{}", numbers.concat());
    }
}
