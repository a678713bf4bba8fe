/* A frame taken apart by hand, as packets.c includes it for each struct: PACKET is the struct, PART and STOP those of its parts and of
   why the reading stops, and BY_HAND names the function. It fills PACKET as etherparse_packet_lax_from_link_type does for Ethernet. */

static inline __attribute__((always_inline)) void BY_HAND(const uint8_t *frame, size_t len, PACKET *packet) {
  memset(packet, 0, sizeof *packet);
  if (len < sizeof(struct ether_header)) {
    packet->stop = (STOP){ .kind = ETHERPARSE_LEN, .layer = ETHERPARSE_LINK_HEADER, .required_len = sizeof(struct ether_header), .len = len };
    return;
  }

  /* Ethernet and up to two tags. */
  uint16_t ether_type = ntohs(((const struct ether_header *)frame)->ether_type);
  size_t at = sizeof(struct ether_header);
  packet->link.kind = ETHERPARSE_ETHERNET;
  packet->link.header.len = at;
  packet->link.has_ether_type = true;
  if (is_tag(ether_type)) {
    if (len - at < sizeof(struct tag)) goto cut_tag;
    const struct tag *tag = (const struct tag *)(frame + at);
    packet->link.outer_vlan = vlan_of(tag);
    packet->link.vlan_count = 1;
    ether_type = ntohs(tag->ether_type);
    at += sizeof(struct tag);
    if (is_tag(ether_type)) {
      if (len - at < sizeof(struct tag)) goto cut_tag;
      tag = (const struct tag *)(frame + at);
      packet->link.inner_vlan = vlan_of(tag);
      packet->link.vlan_count = 2;
      ether_type = ntohs(tag->ether_type);
      at += sizeof(struct tag);
    }
  }
  packet->link.ether_type = ether_type;
  packet->link.payload = (PART){ at, len - at };
  if (ether_type != ETHERTYPE_IP && ether_type != ETHERTYPE_IPV6) return;

  /* The IP packet, which ends at `end`, its payload, which begins at `body`, and its number. */
  const uint8_t *ip = frame + at;
  size_t there = len - at, body, end;
  uint8_t upper;
  bool is_ipv4;
  if (there == 0) {
    packet->stop = (STOP){ .kind = ETHERPARSE_LEN, .layer = ETHERPARSE_IP_HEADER, .required_len = 1, .layer_start_offset = at };
    return;
  }
  if (ip[0] >> 4 == 4) {
    if (there < sizeof(struct iphdr)) {
      packet->stop = (STOP){ ETHERPARSE_LEN, 0, ETHERPARSE_IPV4_HEADER, sizeof(struct iphdr), there, at, 0 };
      return;
    }
    const struct iphdr *header = (const struct iphdr *)ip;
    size_t header_len = 4u * header->ihl, total_len = ntohs(header->tot_len);
    if (header->ihl < 5) {
      packet->stop = (STOP){ .kind = ETHERPARSE_HEADER_LENGTH_SMALLER_THAN_HEADER, .number = header->ihl, .layer = ETHERPARSE_IPV4_HEADER };
      return;
    }
    if (there < header_len) {
      packet->stop = (STOP){ ETHERPARSE_LEN, 0, ETHERPARSE_IPV4_HEADER, header_len, there, at, 0 };
      return;
    }
    body = at + header_len;
    end = at + total_len;
    if (total_len < header_len) {
      packet->stop = (STOP){ ETHERPARSE_LEN, ETHERPARSE_FROM_IPV4_TOTAL_LEN, ETHERPARSE_IPV4_PACKET, header_len, total_len, at, 0 };
      if (total_len != 0) return;
      end = len;
    } else if (there < total_len) {
      packet->stop = (STOP){ ETHERPARSE_LEN, 0, ETHERPARSE_IPV4_PACKET_BYTES, total_len, there, at, 0 };
      end = len;
    }
    is_ipv4 = true;
    upper = header->protocol;
    packet->ip.version = 4;
    packet->ip.header = (PART){ at, header_len };
    packet->ip.extensions.offset = body;
    packet->ip.packet_len = total_len;
    packet->ip.is_truncated = there < total_len;
    uint16_t fragment = ntohs(header->frag_off);
    if (fragment & (IP_MF | IP_OFFMASK)) {
      packet->ip.is_fragment = true;
      packet->ip.identification = ntohs(header->id);
      packet->ip.fragment_offset = 8u * (fragment & IP_OFFMASK);
      packet->ip.more_fragments = (fragment & IP_MF) != 0;
      packet->ip.is_later_fragment = (fragment & IP_OFFMASK) != 0;
    }
  } else if (ip[0] >> 4 == 6) {
    if (there < sizeof(struct ip6_hdr)) {
      packet->stop = (STOP){ ETHERPARSE_LEN, 0, ETHERPARSE_IPV6_HEADER, sizeof(struct ip6_hdr), there, at, 0 };
      return;
    }
    const struct ip6_hdr *header = (const struct ip6_hdr *)ip;
    size_t packet_len = sizeof *header + ntohs(header->ip6_plen);
    body = at + sizeof *header;
    end = at + packet_len;
    if (header->ip6_plen == 0 && header->ip6_nxt == IPPROTO_HOPOPTS) { /* as in a jumbogram */
      packet->stop = (STOP){ ETHERPARSE_LEN, ETHERPARSE_FROM_IPV6_PAYLOAD_LENGTH, ETHERPARSE_IPV6_EXT_HEADER, 2, 0, body, 0 };
      packet_len = 0;
      end = len;
    }
    if (there < packet_len) {
      packet->stop = (STOP){ ETHERPARSE_LEN, 0, ETHERPARSE_IPV6_PACKET, packet_len, there, at, 0 };
      end = len;
    }
    is_ipv4 = false;
    upper = header->ip6_nxt;
    while (is_extension(upper) && !packet->ip.is_later_fragment) {
      size_t left = end - body, header_len = 2;
      if (left >= 2) {
        header_len = upper == IPPROTO_FRAGMENT ? 8 : upper == IPPROTO_AH ? 4u * (frame[body + 1] + 2) : 8u * (frame[body + 1] + 1);
      }
      if (left < header_len) {
        if (packet->stop.kind == ETHERPARSE_OK) {
          packet->stop = (STOP){ ETHERPARSE_LEN, ETHERPARSE_FROM_IPV6_PAYLOAD_LENGTH, ETHERPARSE_IPV6_EXT_HEADER, header_len, left, body, 0 };
        }
        break;
      }
      if (upper == IPPROTO_FRAGMENT) {
        const struct ip6_frag *fragment = (const struct ip6_frag *)(frame + body);
        uint16_t place = ntohs(fragment->ip6f_offlg);
        if ((place & 0xfff9) != 0 && !packet->ip.is_fragment) {
          packet->ip.is_fragment = true;
          packet->ip.identification = ntohl(fragment->ip6f_ident);
          packet->ip.fragment_offset = place & 0xfff8;
          packet->ip.more_fragments = place & 1;
        }
        packet->ip.is_later_fragment = (place & 0xfff8) != 0;
      }
      upper = frame[body];
      body += header_len;
    }
    packet->ip.version = 6;
    packet->ip.header = (PART){ at, sizeof *header };
    packet->ip.extensions = (PART){ at + sizeof *header, body - at - sizeof *header };
    packet->ip.packet_len = packet_len;
    packet->ip.is_truncated = there < packet_len;
  } else {
    packet->stop = (STOP){ .kind = ETHERPARSE_UNEXPECTED_VERSION, .number = ip[0] >> 4, .layer = ETHERPARSE_IP_HEADER };
    return;
  }
  size_t left = end - body;
  packet->ip.upper = upper;
  packet->ip.payload = (PART){ body, left };

  /* The transport header. One that a fragment cuts is no fault, and the first reason to stop counts. */
  if (packet->ip.is_later_fragment) return;
  uint16_t source = is_ipv4 ? ETHERPARSE_FROM_IPV4_TOTAL_LEN : ETHERPARSE_FROM_IPV6_PAYLOAD_LENGTH;
  STOP stop = { 0 };
  size_t header_len;
  if (upper == IPPROTO_TCP) {
    const struct tcphdr *tcp = (const struct tcphdr *)(frame + body);
    if (left >= 4) {
      packet->transport.has_ports = true;
      packet->transport.source_port = ntohs(tcp->source);
      packet->transport.destination_port = ntohs(tcp->dest);
    }
    if (left < sizeof *tcp) {
      stop = (STOP){ ETHERPARSE_LEN, source, ETHERPARSE_TCP_HEADER, sizeof *tcp, left, body, 0 };
      goto cut_transport;
    }
    header_len = 4u * tcp->doff;
    if (tcp->doff < 5) {
      stop = (STOP){ .kind = ETHERPARSE_DATA_OFFSET, .number = tcp->doff, .layer = ETHERPARSE_TCP_HEADER };
      goto cut_transport;
    }
    if (left < header_len) {
      stop = (STOP){ ETHERPARSE_LEN, source, ETHERPARSE_TCP_HEADER, header_len, left, body, 0 };
      goto cut_transport;
    }
    packet->transport.tcp_flags = tcp->th_flags;
  } else if (upper == IPPROTO_UDP) {
    const struct udphdr *udp = (const struct udphdr *)(frame + body);
    header_len = sizeof *udp;
    if (left >= 4) {
      packet->transport.has_ports = true;
      packet->transport.source_port = ntohs(udp->source);
      packet->transport.destination_port = ntohs(udp->dest);
    }
    if (left < header_len) {
      stop = (STOP){ ETHERPARSE_LEN, source, ETHERPARSE_UDP_HEADER, header_len, left, body, 0 };
      goto cut_transport;
    }
  } else if (upper == (is_ipv4 ? IPPROTO_ICMP : IPPROTO_ICMPV6)) {
    header_len = 4;
    if (left < header_len) {
      stop = (STOP){ ETHERPARSE_LEN, source, is_ipv4 ? ETHERPARSE_ICMPV4 : ETHERPARSE_ICMPV6, header_len, left, body, 0 };
      goto cut_transport;
    }
    packet->transport.icmp_type = frame[body];
    packet->transport.icmp_code = frame[body + 1];
  } else {
    return;
  }
  packet->transport.kind = upper;
  packet->transport.header = (PART){ body, header_len };
  packet->transport.payload = (PART){ body + header_len, left - header_len };
  return;

cut_transport:
  if (!packet->ip.is_fragment && packet->stop.kind == ETHERPARSE_OK) packet->stop = stop;
  return;

cut_tag:
  packet->link.ether_type = ether_type;
  packet->link.payload = (PART){ at, len - at };
  packet->stop = (STOP){ ETHERPARSE_LEN, 0, ETHERPARSE_VLAN_HEADER, sizeof(struct tag), len - at, at, 0 };
}
