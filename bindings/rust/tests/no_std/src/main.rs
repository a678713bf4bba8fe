//! A program without `std`. A crate that links `std` brings a panic handler, and then this one does
//! not compile. It ends with 0 if the calls answer what they should.
#![no_std]
#![no_main]

use core::panic::PanicInfo;
use etherparse_proved::filter::Filter;
use etherparse_proved::rewriting::set_source_port;
use etherparse_proved::{LaxSlicedPacket, LinkType, PacketBuffer, SlicedPacket, Verdict};

#[link(name = "c")]
extern "C" {
    fn abort() -> !;
}

#[panic_handler]
fn panicked(_: &PanicInfo) -> ! {
    // SAFETY: it takes nothing and does not return.
    unsafe { abort() }
}

// What `core` names where a panic would unwind; here none does.
#[no_mangle]
extern "C" fn rust_eh_personality() {}

// A UDP datagram over IPv4, from port 1024 to port 53.
const PACKET: [u8; 32] = [
    0x45, 0, 0, 32, 0, 0, 0, 0, 64, 17, 0, 0, 192, 168, 0, 1, 192, 168, 0, 199, 4, 0, 0, 53, 0, 12,
    0x91, 0xae, b't', b'e', b's', b't',
];

fn is_read() -> bool {
    let Ok(packet) = SlicedPacket::from_ip(&PACKET) else {
        return false;
    };
    packet.ports() == Some((1024, 53)) && packet.verdict() == Some(Verdict::Right)
}

fn is_read_in_a_batch() -> bool {
    let frames: [&[u8]; 3] = [&PACKET, &PACKET[..31], &PACKET[..7]];
    let mut buffer = PacketBuffer::<2>::new();
    let batch = LaxSlicedPacket::batch(LinkType::RAW, frames, true, &mut buffer);
    batch
        .map(|(_, packet)| packet.ports())
        .eq([Some((1024, 53)), Some((1024, 53)), None])
}

fn is_chosen_until_changed() -> bool {
    let Ok(mut filter) = Filter::from_text("src port 1024") else {
        return false;
    };
    let mut packet = PACKET;
    let was = filter.matches_frame(LinkType::RAW, &packet, packet.len());
    let is_changed = set_source_port(&mut packet, 1025).is_ok();
    was && is_changed && !filter.matches_frame(LinkType::RAW, &packet, packet.len())
}

#[no_mangle]
pub extern "C" fn main() -> i32 {
    i32::from(!is_read() || !is_read_in_a_batch() || !is_chosen_until_changed())
}
