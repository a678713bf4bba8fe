use etherparse_proved::{SlicedPacket, TransportSlice};

fn main() -> Result<(), etherparse_proved::err::packet::SliceError> {
    // A UDP datagram over IPv4, from port 1024 to port 53.
    let packet = [
        0x45, 0, 0, 32, 0, 0, 0, 0, 64, 17, 0, 0, 192, 168, 0, 1, 192, 168, 0, 199, 4, 0, 0, 53, 0,
        12, 0x91, 0xae, b't', b'e', b's', b't',
    ];
    let packet = SlicedPacket::from_ip(&packet)?;
    if let (Some(ip), Some(TransportSlice::Udp(udp))) = (packet.net, packet.transport) {
        let (from, to) = (ip.source_addr(), ip.destination_addr());
        println!("{from} to {to}, port {}", udp.destination_port());
    }
    if let Some(verdict) = packet.verdict() {
        println!("the checksum is {verdict}");
    }
    Ok(())
}
