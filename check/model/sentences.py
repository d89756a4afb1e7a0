"""A sentence for each rule, as a view of a run prints it."""

SENTENCES = {
    "L_SNAP": "fewer octets were captured than the packet had",
    "L_SHORT": "an Ethernet frame has fewer than 14 octets",
    "L_TYPE": "the EtherType is neither IPv4 nor ARP, or an ARP frame has more than 65549 octets",
    "I_SHORT": "the packet has fewer than 20 octets",
    "I_VERSION": "the IP version is not 4",
    "I_HLEN": "the header length is below 5 words or longer than the packet",
    "I_LEN": "the total length is below the header length or longer than the packet",
    "I_SUM": "the checksum of the IP header is wrong",
    "I_SRC": "the source begins with 0, 127, or 224 and above, or equals the destination",
    "I_DST": "the destination begins with 0, 127, or 240 and above",
    "I_SIDE": "source and destination are both trusted, or neither is",
    "I_OPT_BAD": "an IP option is malformed",
    "I_ROUTE": "the packet has a source route",
    "P_PROTO": "the protocol is not ICMP, TCP or UDP",
    "I_TRAIL": "octets after the total length are cut off",
    "I_OPT": "the IP options are removed",
    "I_RES": "the reserved flag of the IP header is cleared",
    "I_TTL": "a time to live that is too low for the routers behind norm is raised",
    "F_DF": "a fragment with an offset above 0 has DF set",
    "F_EMPTY": "a fragment has no payload",
    "F_ALIGN": "a fragment with MF has a payload that is no multiple of 8 octets",
    "F_BIG": "a fragment ends after octet 65515 of its datagram",
    "F_END": "a fragment contradicts the end of its datagram, which is forgotten",
    "F_CLASH": "an octet differs from the held one at its offset, and the datagram is forgotten",
    "F_MANY": "as many datagrams as --frags allows are held already",
    "F_ROOM": "the fragment needs more cells than --frag-cells leaves free",
    "F_HELD": "the fragment is held until its datagram is complete",
    "F_DONE": "the fragment completes its datagram, which is judged as one packet",
    "U_SHORT": "a UDP message has fewer than 8 octets",
    "U_LEN": "the UDP length is not the length of the message",
    "U_SUM": "the UDP checksum is wrong",
    "M_SHORT": "an ICMP message has fewer than 8 octets",
    "M_SUM": "the ICMP checksum is wrong",
    "M_TYPE": "the ICMP type is not 0, 3, 8, 11, 12, 13 or 14",
    "M_QUOTE": "an inbound ICMP error quotes no packet from a trusted to an untrusted address, or "
               "a segment without a live era",
    "U_SUM_OUT": "the checksum of an outbound UDP message is computed again",
    "T_SHORT": "a segment has fewer than 20 octets",
    "T_HLEN": "the data offset is below 5 words or longer than the segment",
    "T_SUM": "the TCP checksum is wrong",
    "T_FLAGS": "the combination of SYN, FIN, RST and ACK is not allowed",
    "T_OPT_BAD": "a TCP option is malformed",
    "T_COLD": "an inbound RST, or SYN with ACK, belongs to no live era",
    "T_STATE": "an inbound segment does not fit an era that is not open yet",
    "T_SYN": "an inbound SYN has another sequence number than the one before its era's first octet",
    "T_RST": "an inbound RST is outside of what its era takes",
    "T_FULL": "an era would begin while the table is full and none can be evicted",
    "T_QUOTA": "the connection would hold more cells than --quota allows",
    "T_ROOM": "the octets of the segment need more cells than --cells leaves free",
    "T_SUM_OUT": "the checksum of an outbound TCP segment is computed again",
    "T_RES": "reserved bits of the TCP header are cleared",
    "T_URG": "URG and the urgent pointer are cleared",
    "T_OPT": "TCP options are replaced by no-operations, or octets after their end are cleared",
    "T_STRIP": "the payload of a SYN or RST is cut off",
    "C_PROBE": "a keep-alive is sent, in place of the segment or after a RST",
    "T_OLD": "octets that the receiver has acknowledged are cut off",
    "T_WINDOW": "octets more than one past the window of the receiver are cut off",
    "T_TURN": "not used any more, older reports may have it",
    "T_END": "octets after the end of the stream are cut off, or a FIN that cannot be the end is cleared",
    "T_CLASH": "octets that differ from those first sent at their offsets are replaced",
    "E_CUT": "the segment is too long for --mtu and is cut into segments that fit",
    "E_MTU": "the packet is too long for --mtu and cannot be cut, it is not written",
}

# What a chosen record is evidence of.
CLASS_TEXTS = {
    "contradictions": "octets that differ from those first sent (T_CLASH, F_CLASH)",
    "differs": "some hosts may read these otherwise",
    "noise": "segments without payload that are dropped, mostly scans (T_COLD, T_FLAGS)",
}

# What is to be done where there is a note; of those with several texts see advice_of.
ADVICE = {
    "lost": "IN lacks packets: capture again with a greater buffer (-B of tcpdump or dumpcap), and "
            "see how many packets were dropped",
    "order": "octets follow their acknowledgment: reordercap IN SORTED, and run norm on SORTED",
    "half": "IN begins in mid-connection, or is one of several files: norm-rotated joins the files "
            "of a rotated capture",
    "one": "TCP of one direction: capture both directions, or correct PREFIX or the name of --inside",
    "card": "checksums are left to the network card: ethtool -K DEV tx off tso off at the senders, and capture again",
    "wrong": "most checksums are wrong: capture with gro off and lro off; correcting them in IN "
             "would also correct an attacker's",
    "twice": "packets are in IN twice: capture on one interface and not on any; editcap -d removes "
             "copies that are equal in every octet",
    "foreign": "most packets belong to no side: PREFIX is to name the inside; tshark -q -z "
               "endpoints,ip -r IN lists addresses",
    "tagged": "IPv4 after VLAN tags is dropped: tcprewrite --enet-vlan=del -i IN -o UNTAGGED, and run norm on UNTAGGED",
    "ipv6": "TCP and UDP over IPv6 are dropped and not judged",
    "tunnels": "tunnels and SCTP are dropped: capture inside of a tunnel",
    "full": "a table was full: run norm again with a greater value of each option that counts "
            "here: --flows, --cells, --quota, --frags, --frag-cells",
    "cut": "packets are cut short: capture again with tcpdump -s 0",
    "unjudged": "most records were dropped before their payload was judged",
}

# Of `card`, where all that was left to the card went outwards.
OUTWARDS = "outbound checksums are left to the network card: run norm with --offload"

# Of `tagged`, where there is PPPoE or MPLS.
NEITHER = "IPv4 in PPPoE or MPLS is dropped: capture where packets have neither"

# Of `unjudged`, where there is no record, and by the rule that dropped most of them.
NO_RECORD = "IN has no record: was it captured on the right interface, with the right filter?"

NO_SIDE = "most packets have no side: PREFIX must name the inside"

NO_IPV4 = "most records are no IPv4: see tagged and ipv6"

WRONG_LINK = "most records are no IPv4: was the capture converted with the wrong link type?"

UNJUDGED = {"L_TYPE": NO_IPV4, "I_VERSION": WRONG_LINK, "I_SIDE": NO_SIDE, "I_SRC": NO_SIDE, "I_DST": NO_SIDE}


def advice_of(name, counts):
    """Returns what a note with these counts says."""
    if name == "card" and counts["in"] == counts["neither"] == 0:
        return OUTWARDS
    if name == "tagged" and counts["pppoe"] + counts["mpls"] > 0:
        return ADVICE["tagged"] + "; " + NEITHER if counts["vlan"] > 0 else NEITHER
    if name == "unjudged" and counts["of"] == 0:
        return NO_RECORD
    if name == "unjudged":
        return UNJUDGED.get(counts["rules"][0]["rule"], ADVICE["unjudged"])
    return ADVICE[name]
