//! Views, reads, makes and writes headers, walks past extension headers and sums bytes, and shows what is refused.

#[path = "../include/etherparse.rs"]
mod etherparse;

use etherparse::*;
use std::ptr;

// A slice as the library takes it: an empty one is a null pointer.
fn parts(bytes: &[u8]) -> (*const u8, usize) {
    let at = if bytes.is_empty() { ptr::null() } else { bytes.as_ptr() };
    (at, bytes.len())
}

fn view_ipv4(bytes: &[u8]) -> Ipv4ViewAnswer {
    let (at, len) = parts(bytes);
    // SAFETY: `at` points to `len` bytes, or is null and `len` 0.
    unsafe { etherparse_ipv4_view(at, len) }
}

fn read_ipv4(bytes: &[u8]) -> Ipv4ReadAnswer {
    let (at, len) = parts(bytes);
    // SAFETY: as above.
    unsafe { etherparse_ipv4_read(at, len) }
}

fn view_ipv6(bytes: &[u8]) -> Ipv6ViewAnswer {
    let (at, len) = parts(bytes);
    // SAFETY: as above.
    unsafe { etherparse_ipv6_view(at, len) }
}

fn read_ipv6(bytes: &[u8]) -> Ipv6ReadAnswer {
    let (at, len) = parts(bytes);
    // SAFETY: as above.
    unsafe { etherparse_ipv6_read(at, len) }
}

fn walk(bytes: &[u8], next_header: u8) -> Ipv6WalkAnswer {
    let (at, len) = parts(bytes);
    // SAFETY: as above.
    unsafe { etherparse_ipv6_walk(at, len, next_header) }
}

fn walk_up_to(bytes: &[u8], next_header: u8, limit: usize) -> Ipv6WalkAnswer {
    let (at, len) = parts(bytes);
    // SAFETY: as above.
    unsafe { etherparse_ipv6_walk_up_to(at, len, next_header, limit) }
}

fn write_ipv4(fields: &Ipv4Fields) -> Ipv4Bytes {
    // SAFETY: a reference points to fields.
    unsafe { etherparse_ipv4_write(fields) }
}

fn write_ipv6(fields: &Ipv6Fields) -> Ipv6Bytes {
    // SAFETY: as above.
    unsafe { etherparse_ipv6_write(fields) }
}

fn header_checksum(fields: &Ipv4Fields) -> Ipv4HeaderChecksumAnswer {
    // SAFETY: a reference points to fields.
    unsafe { etherparse_ipv4_header_checksum(fields) }
}

// A header without options, from one host to another.
fn new_header(payload_len: u16) -> Ipv4NewAnswer {
    // SAFETY: both references point to four bytes.
    unsafe { etherparse_ipv4_new(payload_len, 64, 17, &[192, 168, 0, 1], &[192, 168, 0, 199]) }
}

fn skip(bytes: &[u8], next_header: u8) -> Ipv6WalkAnswer {
    let (at, len) = parts(bytes);
    // SAFETY: `at` points to `len` bytes, or is null and `len` 0.
    unsafe { etherparse_ipv6_skip(at, len, next_header) }
}

fn set_time_to_live(fields: &mut Ipv4Fields, time_to_live: u8) -> bool {
    // SAFETY: a reference points to fields.
    unsafe { etherparse_ipv4_set_time_to_live(fields, time_to_live) }
}

fn lengths(total_len: u16, options_len: u8) -> Ipv4LengthsAnswer {
    // SAFETY: only numbers are passed.
    unsafe { etherparse_ipv4_lengths(total_len, options_len) }
}

// The complements of the sum of the pieces, in 64 and in 32 bits.
fn checksums(pieces: &[&[u8]]) -> (u16, u16) {
    let pieces: Vec<Slice> = pieces
        .iter()
        .map(|piece| {
            let (at, len) = parts(piece);
            Slice { at, len }
        })
        .collect();
    // SAFETY: each piece is a slice that outlives the call.
    unsafe {
        let wide = etherparse_u64_16bit_word_add_slices(pieces.as_ptr(), pieces.len());
        let narrow = etherparse_u32_16bit_word_add_slices(pieces.as_ptr(), pieces.len());
        (
            etherparse_u64_16bit_word_ones_complement(wide),
            etherparse_u32_16bit_word_ones_complement(narrow),
        )
    }
}

// The bytes that hex digits spell; blanks may stand anywhere.
fn bytes_of(digits: &str) -> Vec<u8> {
    let digits: Vec<u8> = digits
        .chars()
        .filter_map(|digit| digit.to_digit(16))
        .map(|digit| digit as u8)
        .collect();
    digits.chunks(2).map(|pair| 16 * pair[0] + pair[1]).collect()
}

// The same, padded with 0 to a length.
fn padded(digits: &str, len: usize) -> Vec<u8> {
    let mut bytes = bytes_of(digits);
    bytes.resize(len, 0);
    bytes
}

fn print_hex(name: &str, bytes: &[u8]) {
    let digits: String = bytes.iter().map(|byte| format!("{byte:02x}")).collect();
    println!("  {name} {}", if digits.is_empty() { "-" } else { &digits });
}

fn yes_or_no(is: bool) -> &'static str {
    if is {
        "yes"
    } else {
        "no"
    }
}

// Prints the numbers of an error, and its text. `before` is how many bytes of the packet come
// before the slice that was refused: its header, or none.
fn print_error(mut error: Error, before: usize) {
    error.layer_start_offset += before;
    println!(
        "  error: kind {}, number {}, layer {}, required_len {}, len {}, layer_start_offset {}, limit {}",
        error.kind,
        error.number,
        error.layer,
        error.required_len,
        error.len,
        error.layer_start_offset,
        error.limit
    );
    let mut text = [0; ERROR_TEXT_SIZE];
    // SAFETY: the pointer points to that many bytes.
    let len = unsafe { etherparse_error_text(&error, text.as_mut_ptr(), text.len()) };
    println!("  {len} bytes: {}", String::from_utf8_lossy(&text[..len]));
}

// Prints what the getters of a view return, and the fields of the owned header.
fn show_ipv4(name: &str, bytes: &[u8]) {
    println!("IPv4, {name}");
    let (seen, read) = (view_ipv4(bytes), read_ipv4(bytes));
    if seen.error.kind != OK || read.error.kind != OK {
        print_error(seen.error, 0);
        print_error(read.error, 0);
        return;
    }
    print_ipv4_getters(&seen.view);
    print_hex("options", &bytes[20..seen.rest.offset]);
    println!("  computed {:04x}", header_checksum(&read.fields).checksum);
    let lengths = lengths(read.fields.total_len, read.fields.options_len);
    println!(
        "  header_len {}, max_payload_len {}, payload_len {}",
        lengths.header_len, lengths.max_payload_len, lengths.payload_len
    );
    if lengths.error.kind != OK {
        print_error(lengths.error, 0);
    }
    let written = write_ipv4(&read.fields);
    print_hex("written", &written.bytes[..usize::from(written.len)]);
    println!("  rest at {}, {} bytes", read.rest.offset, read.rest.len);
}

fn print_ipv4_getters(view: &Ipv4ViewFields) {
    println!(
        "  ihl {}, dscp {}, ecn {}, total_len {}, identification {}",
        view.ihl, view.dscp, view.ecn, view.total_len, view.identification
    );
    println!(
        "  dont_fragment {}, more_fragments {}, fragment_offset {}, a fragment {}",
        yes_or_no(view.dont_fragment),
        yes_or_no(view.more_fragments),
        view.fragment_offset,
        yes_or_no(view.is_fragmenting_payload)
    );
    println!(
        "  time_to_live {}, protocol {}, header_checksum {:04x}",
        view.time_to_live, view.protocol, view.header_checksum
    );
    print_hex("source", &view.source);
    print_hex("destination", &view.destination);
}

// Forwards a packet to the next hop.
fn show_next_hop(bytes: &[u8], time_to_live: u8) {
    let mut fields = read_ipv4(bytes).fields;
    if !set_time_to_live(&mut fields, time_to_live) {
        return;
    }
    println!(
        "the next hop: time_to_live {}, header_checksum {:04x}, computed {:04x}",
        fields.time_to_live,
        fields.header_checksum,
        header_checksum(&fields).checksum
    );
}

fn show_ipv6(name: &str, bytes: &[u8]) {
    println!("IPv6, {name}");
    let (seen, read) = (view_ipv6(bytes), read_ipv6(bytes));
    if seen.error.kind != OK || read.error.kind != OK {
        print_error(seen.error, 0);
        print_error(read.error, 0);
        return;
    }
    let view = &seen.view;
    println!(
        "  traffic_class {}, dscp {}, ecn {}, flow_label {}",
        view.traffic_class, view.dscp, view.ecn, view.flow_label
    );
    println!(
        "  payload_length {}, next_header {}, hop_limit {}",
        view.payload_length, view.next_header, view.hop_limit
    );
    print_hex("source", &view.source);
    print_hex("destination", &view.destination);
    let written = write_ipv6(&read.fields);
    print_hex("written", &written.bytes[..usize::from(written.len)]);
    let walk = walk(&bytes[read.rest.offset..], read.fields.next_header);
    print_walk(&walk, read.rest.offset);
}

fn print_walk(walk: &Ipv6WalkAnswer, before: usize) {
    if walk.error.kind != OK {
        return print_error(walk.error, before);
    }
    println!(
        "  then {} at {}, {} bytes",
        walk.next_header,
        before + walk.rest.offset,
        walk.rest.len
    );
}

fn show_walk(bytes: &[u8], next_header: u8) {
    println!("a walk from {next_header} over {} bytes", bytes.len());
    print_walk(&walk(bytes, next_header), 0);
}

fn show_skip(bytes: &[u8], next_header: u8) {
    println!("one skip from {next_header} over {} bytes", bytes.len());
    print_walk(&skip(bytes, next_header), 0);
}

fn show_limited_walk(bytes: &[u8], next_header: u8, limit: usize) {
    println!(
        "a walk from {next_header} over {} bytes, past {limit} headers at most",
        bytes.len()
    );
    print_walk(&walk_up_to(bytes, next_header, limit), 0);
}

fn show_checksum(name: &str, bytes: &[u8], pieces: &[&[u8]]) {
    let (at, len) = parts(bytes);
    let (wide, narrow) = checksums(pieces);
    // SAFETY: as above.
    let (wide_no_zero, narrow_no_zero) = unsafe {
        let wide = etherparse_u64_16bit_word_add_slices(ptr::null(), 0);
        let narrow = etherparse_u32_16bit_word_add_slices(ptr::null(), 0);
        (
            etherparse_u64_16bit_word_ones_complement_with_no_zero(
                etherparse_u64_16bit_word_add_slice(wide, at, len),
            ),
            etherparse_u32_16bit_word_ones_complement_with_no_zero(
                etherparse_u32_16bit_word_add_slice(narrow, at, len),
            ),
        )
    };
    println!(
        "checksum of {name}: {wide:04x}, {narrow:04x}; with no zero: {wide_no_zero:04x}, {narrow_no_zero:04x}"
    );
}

fn show_checksums() {
    show_checksum("no bytes", &[], &[]);
    show_checksum("ones", &[0xff, 0xff], &[&[0xff, 0xff]]);
    // The first piece is padded with a 0.
    show_checksum("two pieces", &[1, 0, 2, 3], &[&[1], &[2, 3]]);
    let three = [1, 2, 3];
    // SAFETY: as above.
    let (wide, narrow) = unsafe {
        (
            etherparse_u64_16bit_word_checksum(0, three.as_ptr(), 3),
            etherparse_u32_16bit_word_checksum(0, three.as_ptr(), 3),
        )
    };
    println!("checksum of one piece: {wide:04x}, {narrow:04x}");
    // SAFETY: only numbers are passed.
    let (swapped, updated) =
        unsafe { (etherparse_swap_bytes(wide), etherparse_update_2bytes(0xdd2f, 0x5555, 0x3285)) };
    println!("in the other byte order: {swapped:04x}");
    println!("checksum dd2f with 3285 for 5555: {updated:04x}");
}

// Adds the words of a slice to a sum.
fn added(sum: u64, bytes: &[u8]) -> u64 {
    let (at, len) = parts(bytes);
    // SAFETY: `at` points to `len` bytes, or is null and `len` 0.
    unsafe { etherparse_u64_16bit_word_add_slice(sum, at, len) }
}

// The checksum of a UDP packet over IPv4: the addresses, the protocol and the length in a
// pseudo-header (RFC 768), and then the UDP header, whose own checksum is 0, and its payload.
fn show_pseudo_header() {
    let pseudo_header = [192, 0, 2, 1, 192, 0, 2, 2, 0, 17, 0, 12];
    let mut udp = *b"\x30\x39\x00\x35\x00\x0c\x00\x00abcd";
    let sum = added(0, &pseudo_header);
    // SAFETY: only a number is passed.
    let checksum = unsafe { etherparse_u64_16bit_word_ones_complement_with_no_zero(added(sum, &udp)) };
    udp[6..8].copy_from_slice(&checksum.to_le_bytes());
    print_hex("UDP", &udp);
    // SAFETY: as above.
    let received = unsafe { etherparse_u64_16bit_word_ones_complement(added(sum, &udp)) };
    println!("  a receiver's sum {received:04x}");
}

// Headers whose fields all differ, written and read again.
fn show_made() {
    let mut options = [0; 40];
    options[..4].copy_from_slice(&[19, 20, 21, 22]);
    let ipv4 = Ipv4Fields {
        dscp: 10,
        ecn: 1,
        total_len: 0x0102,
        identification: 0x0304,
        dont_fragment: true,
        more_fragments: false,
        fragment_offset: 0x1506,
        time_to_live: 7,
        protocol: 8,
        header_checksum: 0x090a,
        source: [11, 12, 13, 14],
        destination: [15, 16, 17, 18],
        options_len: 4,
        options,
    };
    let ipv6 = Ipv6Fields {
        source: std::array::from_fn(|i| 0x20 + i as u8),
        destination: std::array::from_fn(|i| 0x30 + i as u8),
        flow_label: 0x34567,
        payload_length: 0x89ab,
        traffic_class: 0x12,
        next_header: 0xcd,
        hop_limit: 0xef,
    };
    let (first, second) = (write_ipv4(&ipv4), write_ipv6(&ipv6));
    println!("made of fields");
    print_hex("IPv4", &first.bytes[..usize::from(first.len)]);
    print_hex("IPv6", &second.bytes[..usize::from(second.len)]);
    show_ipv4("made of fields", &first.bytes[..usize::from(first.len)]);
    show_ipv6("made of fields", &second.bytes[..usize::from(second.len)]);
}

fn print_fields(fields: &Ipv4Fields) {
    println!(
        "  dscp {}, ecn {}, total_len {}, identification {}, dont_fragment {}, more_fragments {}, fragment_offset {}",
        fields.dscp,
        fields.ecn,
        fields.total_len,
        fields.identification,
        yes_or_no(fields.dont_fragment),
        yes_or_no(fields.more_fragments),
        fields.fragment_offset
    );
    println!(
        "  time_to_live {}, protocol {}, header_checksum {:04x}, options_len {}",
        fields.time_to_live, fields.protocol, fields.header_checksum, fields.options_len
    );
    print_hex("source", &fields.source);
    print_hex("destination", &fields.destination);
    print_hex("options", &fields.options);
}

// Headers that the library fills in.
fn show_new() {
    // SAFETY: nothing is passed.
    let (none, other) = unsafe { (etherparse_ipv4_default(), etherparse_ipv6_default()) };
    println!("no field given");
    print_fields(&none);
    print_hex("IPv6", &write_ipv6(&other).bytes);
    println!("new, for a payload of 95 bytes");
    let mut made = new_header(95).fields;
    made.header_checksum = header_checksum(&made).checksum;
    print_fields(&made);
    println!("new, for a payload of 65516 bytes");
    print_error(new_header(65516).error, 0);
}

// Fields that are out of bounds are refused.
fn show_refused_fields() {
    let mut ipv4 = read_ipv4(&padded("45", 20)).fields;
    ipv4.dscp = 64;
    let checksum = header_checksum(&ipv4);
    let is_set = set_time_to_live(&mut ipv4, 9);
    println!(
        "dscp 64: {} bytes, checksum {}, {}, time_to_live {}, {}",
        write_ipv4(&ipv4).len,
        yes_or_no(checksum.accepted),
        checksum.checksum,
        yes_or_no(is_set),
        ipv4.time_to_live
    );
    let mut ipv6 = read_ipv6(&padded("60", 40)).fields;
    ipv6.flow_label = 1_048_576;
    println!("flow_label 1048576: {} bytes", write_ipv6(&ipv6).len);
    let lengths = lengths(20, 3);
    println!("3 bytes of options: header_len {}", lengths.header_len);
    print_error(lengths.error, 0);
}

fn main() {
    let udp = bytes_of("45000073 00004000 4011b861 c0a80001 c0a800c7");
    show_ipv4("a UDP packet", &udp);
    show_next_hop(&udp, 63);
    let mut largest = bytes_of("4fffffff ffff7fff");
    largest.resize(60, 0xff);
    show_ipv4("the largest header", &largest);
    show_ipv4("the reserved bit", &padded("45000000 0000c000", 20));
    show_ipv4("a total length below the header's", &padded("45000013", 25));
    show_ipv4("no bytes", &[]);
    show_ipv4("19 bytes", &[0; 19]);
    show_ipv4("version 5", &padded("54", 20));
    show_ipv4("IHL 4", &padded("44", 20));
    show_ipv4("shorter than the IHL says", &padded("46", 23));

    let addresses = "00000000 00000000 00000000 00000001 00000000 00000000 00000000 00000002";
    show_ipv6("no payload", &bytes_of(&format!("60000000 00003b40 {addresses}")));
    show_ipv6("a traffic class and a flow label", &padded("6abcdef0 00003b00", 40));
    let chained = format!("60000000 000b0040 {addresses} 2b000000 00000000 060100");
    show_ipv6("an incomplete extension header", &bytes_of(&chained));
    show_ipv6("no bytes", &[]);
    show_ipv6("39 bytes", &padded("45", 39));
    show_ipv6("version 4", &padded("45", 40));

    show_walk(&bytes_of("06000000 00000000 09"), 0);
    show_walk(&bytes_of("06ff0000 00000000 09"), 44);
    show_walk(&bytes_of("11010000 00000000 00000000 05"), 51);
    show_walk(&bytes_of("2b000000 00000000 060100"), 0);
    show_walk(&[6], 44);
    show_walk(&[0; 24], 0);
    show_walk(&[6, 5, 4], 50);
    show_walk(&[], 59);
    show_skip(&bytes_of("2b000000 00000000 060100"), 0);
    show_skip(&[6, 5, 4], 50);
    show_skip(&[6, 1, 0], 43);
    show_limited_walk(&bytes_of("2b000000 00000000 060100"), 0, 1);
    show_limited_walk(&[0; 24], 0, 3);
    show_limited_walk(&[0; 24], 0, 4);

    show_checksums();
    show_pseudo_header();
    show_made();
    show_new();
    show_refused_fields();
}
