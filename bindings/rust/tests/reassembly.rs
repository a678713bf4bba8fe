//! Fragments put together: those of RFC 791 section 3.2 and RFC 8200 section 4.5 in each order,
//! overlaps (RFC 5722), a second end, what no datagram can have, and packets of both versions. The
//! checksum of the packet that is written is that of RFC 1071 over its header.

mod common;

use common::{bytes_of, cause};
use etherparse_proved::reassembly::*;
use etherparse_proved::IpFragOffset;

// A datagram, and its fragments of 8, 8 and 5 bytes.
const DATAGRAM: [u8; 21] = [
    101, 102, 103, 104, 105, 106, 107, 108, 201, 202, 203, 204, 205, 206, 207, 208, 11, 12, 13, 14,
    15,
];

fn offset(units: u16) -> IpFragOffset {
    IpFragOffset::try_new(units).unwrap()
}

fn piece(k: usize) -> &'static [u8] {
    &DATAGRAM[8 * k..21.min(8 * k + 8)]
}

fn add(buf: &mut IpDefragBuf, k: usize) {
    assert_eq!(buf.add(offset(k as u16), k < 2, piece(k)), Ok(()));
}

// What is known of a datagram, and its length.
fn seen(buf: &mut IpDefragBuf) -> (DatagramState, Option<usize>) {
    (buf.state(), buf.datagram_len())
}

#[test]
fn the_order_makes_no_difference() {
    let mut memory = Box::new(IpDefragMemory::new());
    for order in [
        [0, 1, 2],
        [0, 2, 1],
        [1, 0, 2],
        [1, 2, 0],
        [2, 0, 1],
        [2, 1, 0],
    ] {
        let mut buf = IpDefragBuf::new(&mut memory);
        for k in order {
            assert_eq!(buf.state(), DatagramState::Incomplete);
            assert_eq!(
                (buf.datagram_len(), buf.datagram(&mut [0; 30])),
                (None, None)
            );
            add(&mut buf, k);
            add(&mut buf, order[0]);
        }
        assert_eq!(seen(&mut buf), (DatagramState::Complete, Some(21)));
        let mut out = [0x77; 22];
        assert_eq!(buf.datagram(&mut out[..20]), None);
        assert_eq!(out, [0x77; 22]);
        assert_eq!(buf.datagram(&mut out), Some(&DATAGRAM[..]));
        assert_eq!((&out[..21], out[21]), (&DATAGRAM[..], 0x77));
        buf.clear();
        assert_eq!(seen(&mut buf), (DatagramState::Incomplete, None));
    }
}

#[test]
fn contradictions_discard_the_datagram() {
    let mut memory = Box::new(IpDefragMemory::new());
    // Of the same bytes, but not the same fragment; one byte that differs; a second end, after the
    // first and before it.
    let cases: [(usize, u16, bool, &[u8]); 4] = [
        (1, 0, true, &DATAGRAM[..16]),
        (0, 0, true, &DATAGRAM[8..16]),
        (2, 3, false, &DATAGRAM[..3]),
        (2, 1, false, &DATAGRAM[8..16]),
    ];
    for (first, units, more_fragments, payload) in cases {
        let mut buf = IpDefragBuf::new(&mut memory);
        add(&mut buf, first);
        assert_eq!(buf.add(offset(units), more_fragments, payload), Ok(()));
        assert_eq!(buf.state(), DatagramState::Discarded);
        (0..3).for_each(|k| add(&mut buf, k));
        assert_eq!(seen(&mut buf), (DatagramState::Discarded, None));
    }
}

#[test]
fn what_no_datagram_can_have_is_refused() {
    let mut memory = Box::new(IpDefragMemory::new());
    let mut buf = IpDefragBuf::new(&mut memory);
    let bytes = vec![0x3c; 65535];
    add(&mut buf, 0);
    let cases = [
        (5, true, 0, "IP Fragment Error: The fragment at byte 40 has no bytes."),
        (
            3,
            true,
            9,
            "IP Fragment Error: More fragments follow the one at byte 24, and its 9 bytes are no multiple of 8.",
        ),
        (
            8191,
            false,
            8,
            "IP Fragment Error: The fragment at byte 65528 has 8 bytes and ends past byte 65535.",
        ),
    ];
    let wanted = [
        IpDefragError::Empty { offset: 5 },
        IpDefragError::UnalignedFragmentPayloadLen {
            offset: 3,
            payload_len: 9,
        },
        IpDefragError::SegmentTooBig {
            offset: 8191,
            payload_len: 8,
        },
    ];
    for ((units, more_fragments, len, text), wanted) in cases.into_iter().zip(wanted) {
        let error = buf
            .add(offset(units), more_fragments, &bytes[..len])
            .unwrap_err();
        assert_eq!((error, error.to_string().as_str()), (wanted, text));
    }
    add(&mut buf, 1);
    add(&mut buf, 2);
    assert_eq!(buf.datagram_len(), Some(21));
    // The longest.
    buf.clear();
    assert_eq!(buf.add(offset(8191), false, &bytes[..7]), Ok(()));
    assert_eq!(buf.add(offset(0), true, &bytes[..65528]), Ok(()));
    let mut out = vec![0; 65535];
    assert_eq!(buf.datagram(&mut out), Some(&bytes[..]));
}

// An IPv4 packet from 192.0.2.1 to 192.0.2.2 that is the fragment k of the datagram.
fn ipv4(identification: u16, k: usize) -> Vec<u8> {
    let mut packet = bytes_of("4500001cabcd20003f110000c0000201c0000202");
    packet[3] = 20 + piece(k).len() as u8;
    packet[4..6].copy_from_slice(&identification.to_be_bytes());
    packet[6] = if k < 2 { 0x20 } else { 0 };
    packet[7] = k as u8;
    packet.extend_from_slice(piece(k));
    packet
}

fn ipv4_id(outer: Option<u16>, inner: Option<u16>, identification: u16) -> IpFragId {
    IpFragId {
        outer_vlan_id: outer,
        inner_vlan_id: inner,
        ip: IpFragVersionSpecId::Ipv4 {
            source: [192, 0, 2, 1],
            destination: [192, 0, 2, 2],
            protocol: 17,
            identification,
        },
    }
}

fn added(slot: usize, state: DatagramState, given_up: Option<IpFragId>) -> Option<Added> {
    Some(Added {
        slot,
        state,
        given_up,
    })
}

// The memory of a pool.
struct Room {
    state: IpDefragPoolState,
    slots: Vec<IpDefragSlot>,
    memory: Vec<[u8; SLOT_MEMORY]>,
    out: Box<[u8; PACKET_SIZE]>,
}

impl Room {
    fn new(count: usize) -> Room {
        Room {
            state: IpDefragPoolState::new(),
            slots: vec![IpDefragSlot::new(); count],
            memory: vec![[0x99; SLOT_MEMORY]; count],
            out: vec![0; PACKET_SIZE].try_into().unwrap(),
        }
    }
}

#[test]
fn packets_of_ipv4_are_put_together() {
    use DatagramState::{Complete, Discarded, Incomplete};
    let Room {
        mut state,
        mut slots,
        mut memory,
        mut out,
    } = Room::new(2);
    let mut pool = IpDefragPool::new(&mut state, &mut slots, &mut memory, TIMEOUT_SECONDS);
    let first = ipv4(0xabcd, 2);
    assert_eq!(
        pool.add_packet(&first, Some(7), None, 100),
        Ok(added(0, Incomplete, None))
    );
    // In another VLAN it is of another datagram.
    assert_eq!(
        pool.add_packet(&first, Some(7), Some(9), 101),
        Ok(added(1, Incomplete, None))
    );
    assert_eq!(pool.write_packet(0, &mut out), Ok(None));
    let second = ipv4(0xabcd, 0);
    assert_eq!(
        pool.add_packet(&second, Some(7), None, 102),
        Ok(added(0, Incomplete, None))
    );
    let mut third = ipv4(0xabcd, 1);
    third.extend([1, 2, 3, 4, 5, 6]);
    assert_eq!(
        pool.add_packet(&third, Some(7), None, 103),
        Ok(added(0, Complete, None))
    );
    let mut whole = bytes_of("45000029abcd00003f114bf3c0000201c0000202");
    whole.extend_from_slice(&DATAGRAM);
    assert_eq!(pool.write_packet(0, &mut out), Ok(Some(&whole[..])));
    // It is no fragment.
    assert_eq!(pool.add_packet(&whole, Some(7), None, 104), Ok(None));

    // No slot is left; a slot is released; the timeout.
    let other = ipv4(0x1234, 1);
    let given_up = Some(ipv4_id(Some(7), None, 0xabcd));
    assert_eq!(
        pool.add_packet(&other, Some(5), Some(6), 105),
        Ok(added(0, Incomplete, given_up))
    );
    pool.release(0);
    let other = ipv4(0x5678, 1);
    assert_eq!(
        pool.add_packet(&other, Some(5), Some(6), 106),
        Ok(added(0, Incomplete, None))
    );
    let mut late = ipv4(0xabcd, 0);
    assert_eq!(
        pool.add_packet(&late, Some(7), Some(9), 160),
        Ok(added(1, Incomplete, None))
    );
    let given_up = Some(ipv4_id(Some(7), Some(9), 0xabcd));
    assert_eq!(
        pool.add_packet(&late, Some(7), Some(9), 161),
        Ok(added(1, Incomplete, given_up))
    );
    late[20] = 1;
    assert_eq!(
        pool.add_packet(&late, Some(7), Some(9), 162),
        Ok(added(1, Discarded, None))
    );
    assert_eq!(pool.write_packet(1, &mut out), Ok(None));
}

#[test]
fn packets_of_ipv6_are_put_together() {
    use DatagramState::{Complete, Incomplete};
    let Room {
        mut state,
        mut slots,
        mut memory,
        mut out,
    } = Room::new(1);
    let mut pool = IpDefragPool::new(&mut state, &mut slots, &mut memory, TIMEOUT_SECONDS);
    let addresses = "fe800000000000000000000000000001ff000000000000000000000000000002";
    let mut first = bytes_of(&format!("6000000000182c3a{addresses}1100000111000044"));
    first.extend_from_slice(&DATAGRAM[..16]);
    assert_eq!(
        pool.add_packet(&first, None, None, 0),
        Ok(added(0, Incomplete, None))
    );
    // Of another hop limit, and of a next header that does not count.
    let mut last = bytes_of(&format!("60000000000d2c09{addresses}0600001011000044"));
    last.extend_from_slice(&DATAGRAM[16..]);
    assert_eq!(
        pool.add_packet(&last, None, None, 1),
        Ok(added(0, Complete, None))
    );
    let mut whole = bytes_of(&format!("600000000015113a{addresses}"));
    whole.extend_from_slice(&DATAGRAM);
    assert_eq!(pool.write_packet(0, &mut out), Ok(Some(&whole[..])));

    last[47] = 0x45;
    let given_up = IpFragId {
        outer_vlan_id: None,
        inner_vlan_id: None,
        ip: IpFragVersionSpecId::Ipv6 {
            source: whole[8..24].try_into().unwrap(),
            destination: whole[24..40].try_into().unwrap(),
            identification: 0x11000044,
        },
    };
    let given_up = added(0, Incomplete, Some(given_up));
    assert_eq!(pool.add_packet(&last, Some(3), Some(4), 2), Ok(given_up));

    // 8 of the 20 bytes of a TCP header.
    first[5] = 16;
    first[40] = 6;
    let error = pool.add_packet(&first[..56], None, None, 3).unwrap_err();
    assert_eq!(error, IpDefragPacketError::HeaderChain);
    assert_eq!(
        error.to_string(),
        "IPv6 Fragment Error: The first fragment lacks a part of the header chain."
    );
    // Headers of 40, 1240 and 8 bytes before a UDP header.
    let mut long = bytes_of(&format!("6000000004e83c3a{addresses}2c9a"));
    long.resize(1296, 0);
    long[1280..1284].copy_from_slice(&[17, 0, 0, 1]);
    let error = pool.add_packet(&long, None, None, 4).unwrap_err();
    assert_eq!(error, IpDefragPacketError::HeadersTooLong { len: 1288 });
    assert_eq!(
        error.to_string(),
        "IP Fragment Error: The headers of the first fragment have 1288 bytes, and there is room for 1280."
    );
}

#[test]
fn packets_are_refused() {
    // The longest datagram, its table, and the headers of its first fragment; the longest packet.
    assert_eq!(SLOT_MEMORY, 65535 + 8192 + 1280);
    assert_eq!((PACKET_SIZE, TIMEOUT_SECONDS), (40 + 65535, 60));
    assert_eq!(std::mem::size_of::<IpDefragMemory>(), 73792);
    let Room {
        mut state,
        mut slots,
        mut memory,
        mut out,
    } = Room::new(1);
    let mut pool = IpDefragPool::new(&mut state, &mut slots, &mut memory, TIMEOUT_SECONDS);
    let mut packet = ipv4(1, 1);
    let error = pool.add_packet(&packet[..27], None, None, 3).unwrap_err();
    assert_eq!(error, IpDefragPacketError::Packet);
    assert_eq!(
        error.to_string(),
        "IP Packet Error: The bytes are no whole IP packet."
    );
    packet[3] = 27;
    let wanted = IpDefragError::UnalignedFragmentPayloadLen {
        offset: 1,
        payload_len: 7,
    };
    let error = pool.add_packet(&packet, None, None, 3).unwrap_err();
    assert_eq!(error, IpDefragPacketError::Fragment(wanted));
    assert_eq!(error.to_string(), wanted.to_string());
    assert_eq!(cause(&error), Some(wanted.to_string()));

    // 65512 bytes and 16: with the header more than 65535.
    packet.resize(65532, 0);
    packet[2..4].copy_from_slice(&65532u16.to_be_bytes());
    packet[6..8].copy_from_slice(&[0x20, 0]);
    let incomplete = added(0, DatagramState::Incomplete, None);
    assert_eq!(pool.add_packet(&packet, None, None, 3), Ok(incomplete));
    packet[2..4].copy_from_slice(&36u16.to_be_bytes());
    packet[6..8].copy_from_slice(&8189u16.to_be_bytes());
    let complete = added(0, DatagramState::Complete, None);
    assert_eq!(pool.add_packet(&packet[..36], None, None, 4), Ok(complete));
    out[0] = 0x42;
    let error = pool.write_packet(0, &mut out).unwrap_err();
    assert_eq!(error, IpDefragPacketError::PacketTooLong);
    assert_eq!(
        error.to_string(),
        "IP Packet Error: The packet is longer than its length field can say."
    );
    assert_eq!(out[0], 0x42);
}

#[test]
#[should_panic(expected = "the pool has no such slot")]
fn a_slot_beyond_the_pool_is_not_written() {
    let Room {
        mut state,
        mut slots,
        mut memory,
        mut out,
    } = Room::new(2);
    let mut pool = IpDefragPool::new(&mut state, &mut slots[..1], &mut memory, TIMEOUT_SECONDS);
    let _ = pool.write_packet(1, &mut out);
}

#[test]
#[should_panic(expected = "the pool has no such slot")]
fn a_slot_without_memory_is_not_released() {
    let Room {
        mut state,
        mut slots,
        mut memory,
        ..
    } = Room::new(2);
    IpDefragPool::new(&mut state, &mut slots, &mut memory[..1], TIMEOUT_SECONDS).release(1);
}

#[test]
#[should_panic(expected = "a pool has a slot")]
fn a_pool_without_a_slot_is_not_made() {
    IpDefragPool::new(
        &mut IpDefragPoolState::new(),
        &mut [],
        &mut [],
        TIMEOUT_SECONDS,
    );
}
