//! The functions of README.md, called.

mod many_frames {
    use etherparse_proved::{LaxSlicedPacket, LinkType, PacketBuffer, Verdict};

    /// How many frames carry a payload whose checksum is wrong.
    fn count_wrong(frames: &[&[u8]]) -> usize {
        let mut buffer = PacketBuffer::<64>::new();
        let frames = frames.iter().copied();
        let batch = LaxSlicedPacket::batch(LinkType::ETHERNET, frames, true, &mut buffer);
        let is_wrong = |packet: &LaxSlicedPacket| packet.verdict() == Some(Verdict::Wrong);
        batch.filter(|(_, packet)| is_wrong(packet)).count()
    }

    // Ethernet, IPv4, and an echo request, whose checksum is that of the data 1, 2, 3 and 4.
    const REQUEST: [u8; 46] = [
        2, 0, 0, 0, 0, 2, 2, 0, 0, 0, 0, 1, 8, 0, 0x45, 0, 0, 32, 0, 0, 0, 0, 64, 1, 0, 0, 10, 0,
        0, 1, 10, 0, 0, 2, 8, 0, 0xf3, 0xf9, 0, 0, 0, 0, 1, 2, 3, 4,
    ];

    #[test]
    fn wrong_checksums_are_counted() {
        let mut changed = REQUEST;
        changed[45] = 5;
        let frames: Vec<&[u8]> = [&REQUEST[..], &changed, &changed, &REQUEST[..45]].repeat(30);
        assert_eq!((count_wrong(&frames), count_wrong(&[])), (60, 0));
    }
}

mod filters {
    use etherparse_proved::filter::{Filter, FilterError};
    use etherparse_proved::LinkType;

    /// Keeps only the frames that an expression chooses.
    fn retain_chosen(expression: &str, frames: &mut Vec<&[u8]>) -> Result<(), FilterError> {
        let mut filter = Filter::from_text(expression)?;
        frames.retain(|frame| filter.matches_frame(LinkType::ETHERNET, frame, frame.len()));
        Ok(())
    }

    #[test]
    fn frames_are_chosen() {
        // Ethernet and IPv4 with the protocol UDP and TCP, and ARP.
        let mut frames = [[0; 42]; 3];
        for (frame, protocol) in frames.iter_mut().zip([17, 6]) {
            frame[12..14].copy_from_slice(&[8, 0]);
            (frame[14], frame[17], frame[23]) = (0x45, 28, protocol);
        }
        frames[2][12..14].copy_from_slice(&[8, 6]);
        let listed: Vec<&[u8]> = frames.iter().map(|frame| &frame[..]).collect();
        let mut chosen = listed.clone();
        assert_eq!(retain_chosen("udp or arp", &mut chosen), Ok(()));
        assert_eq!(chosen, [listed[0], listed[2]]);
        let error = retain_chosen("udp prot 80", &mut chosen).unwrap_err();
        assert_eq!((error.place(), chosen.len()), (4, 2));
    }
}

mod fragments {
    use etherparse_proved::reassembly::{IpDefragPacketError, IpDefragPool, PACKET_SIZE};

    /// The packet that is complete with this fragment of it.
    fn completed<'a>(
        pool: &mut IpDefragPool,
        fragment: &[u8],
        now: u64,
        out: &'a mut [u8; PACKET_SIZE],
    ) -> Result<Option<&'a [u8]>, IpDefragPacketError> {
        let Some(added) = pool.add_packet(fragment, None, None, now)? else {
            return Ok(None);
        };
        let packet = pool.write_packet(added.slot, out)?;
        if packet.is_some() {
            pool.release(added.slot);
        }
        Ok(packet)
    }

    // The 9 bytes of a datagram in two packets, without checksums, and its packet, whose checksum is
    // that of RFC 1071.
    const FIRST: [u8; 28] = [
        0x45, 0, 0, 28, 0, 5, 0x20, 0, 64, 253, 0, 0, 10, 0, 0, 1, 10, 0, 0, 2, 1, 2, 3, 4, 5, 6,
        7, 8,
    ];
    const LAST: [u8; 21] = [
        0x45, 0, 0, 21, 0, 5, 0, 1, 64, 253, 0, 0, 10, 0, 0, 1, 10, 0, 0, 2, 9,
    ];
    const PACKET: [u8; 29] = [
        0x45, 0, 0, 29, 0, 5, 0, 0, 64, 253, 0x65, 0xdd, 10, 0, 0, 1, 10, 0, 0, 2, 1, 2, 3, 4, 5,
        6, 7, 8, 9,
    ];

    #[test]
    fn a_packet_is_complete_with_its_last_fragment() {
        use etherparse_proved::reassembly::{IpDefragPoolState, IpDefragSlot, SLOT_MEMORY};

        let (mut state, mut slots) = (IpDefragPoolState::new(), [IpDefragSlot::new()]);
        let mut memory = vec![[0; SLOT_MEMORY]; slots.len()];
        let mut pool = IpDefragPool::new(&mut state, &mut slots, &mut memory, 60);
        let mut out: Box<[u8; PACKET_SIZE]> = vec![0; PACKET_SIZE].try_into().unwrap();
        for _ in 0..2 {
            assert_eq!(completed(&mut pool, &LAST, 1, &mut out), Ok(None));
            assert_eq!(
                completed(&mut pool, &FIRST, 2, &mut out),
                Ok(Some(&PACKET[..]))
            );
        }
        assert_eq!(completed(&mut pool, &PACKET, 3, &mut out), Ok(None));
        let error = completed(&mut pool, &FIRST[..27], 3, &mut out);
        assert_eq!(error, Err(IpDefragPacketError::Packet));
    }
}

mod changes {
    use etherparse_proved::rewriting::{set_source_ipv4, set_source_port, RewriteError};

    /// Gives a packet that leaves a network the public address, and a port of it. After an error it is
    /// to be dropped: the port can be another already.
    fn translate(packet: &mut [u8], address: [u8; 4], port: u16) -> Result<(), RewriteError> {
        set_source_port(packet, port)?;
        set_source_ipv4(packet, address)?;
        Ok(())
    }

    // A datagram from 10.0.0.1 port 1024, and the same from 198.51.100.7 port 40000, with the sums of
    // RFC 1071.
    const PACKET: [u8; 32] = [
        0x45, 0, 0, 32, 0, 0, 0, 0, 64, 17, 0x66, 0xcb, 10, 0, 0, 1, 10, 0, 0, 2, 4, 0, 0, 53, 0,
        12, 0xff, 0xc4, b't', b'e', b's', b't',
    ];
    const TRANSLATED: [u8; 32] = [
        0x45, 0, 0, 32, 0, 0, 0, 0, 64, 17, 0x46, 0x91, 198, 51, 100, 7, 10, 0, 0, 2, 0x9c, 0x40,
        0, 53, 0, 12, 0x47, 0x4a, b't', b'e', b's', b't',
    ];

    #[test]
    fn a_packet_gets_another_source() {
        let mut packet = PACKET;
        let address = [198, 51, 100, 7];
        assert_eq!(translate(&mut packet, address, 40000), Ok(()));
        assert_eq!(packet, TRANSLATED);
        let error = translate(&mut packet[..31], address, 1);
        assert_eq!(error, Err(RewriteError::Packet));
        assert_eq!(packet, TRANSLATED);
    }
}

mod one_header {
    use etherparse_proved::err::ipv4::HeaderSliceError;
    use etherparse_proved::Ipv4Header;

    /// The header of a packet that is sent on, and what follows it; `None` if it is to be discarded.
    fn forwarded(packet: &[u8]) -> Result<Option<(Ipv4Header, &[u8])>, HeaderSliceError> {
        let (mut header, rest) = Ipv4Header::from_slice(packet)?;
        if !header.lower_time_to_live() {
            return Ok(None);
        }
        Ok(Some((header, rest)))
    }

    #[test]
    fn a_packet_is_sent_on_until_its_time_to_live_is_1() {
        let mut packet = [
            0x45, 0, 0, 21, 0, 0, 0, 0, 2, 17, 0, 0, 10, 0, 0, 1, 10, 0, 0, 2, 7,
        ];
        let (header, rest) = forwarded(&packet).unwrap().unwrap();
        assert_eq!((header.time_to_live, rest), (1, &[7][..]));
        packet[8] = 1;
        assert_eq!(forwarded(&packet), Ok(None));
        assert!(forwarded(&packet[..19]).is_err());
    }
}
