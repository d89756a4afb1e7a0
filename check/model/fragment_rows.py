"""Fragments: those that are held for each datagram, and the rules on a further one.

A datagram is a dictionary entry of `held`, from its key to a list of pieces in the order in which
they came.
"""

from types import SimpleNamespace

LARGEST_PAYLOAD = 65515


def is_fragment(ip):
    return ip.mf or ip.offset > 0


def datagram_key(ip):
    return (ip.src, ip.dst, ip.protocol, ip.ident)


def read_piece(case, now):
    ip = case.ip
    return SimpleNamespace(offset=ip.offset, end=ip.offset + len(case.payload), mf=ip.mf, octets=case.payload,
                           tos=ip.tos, ttl=ip.ttl, df=ip.df, now=now)


def octets_of(pieces):
    """From place to octet; all pieces that are held have the same octet at the same place."""
    octets = {}
    for piece in pieces:
        for i, octet in enumerate(piece.octets):
            octets[piece.offset + i] = octet
    return octets


def blocks_of(pieces):
    """The numbers of the blocks of 256 that hold an octet."""
    blocks = set()
    for piece in pieces:
        blocks.update(range(piece.offset // 256, (piece.end - 1) // 256 + 1))
    return blocks


def forget_old(held, now, frag_time):
    for key in [key for key, pieces in held.items() if now > pieces[0].now + frag_time]:
        del held[key]


def last_end(pieces):
    """The end of the datagram where its last piece is held, otherwise None."""
    ends = [piece.end for piece in pieces if not piece.mf]
    return ends[0] if ends else None


def is_whole(pieces):
    end = last_end(pieces)
    if end is None:
        return False
    octets = octets_of(pieces)
    return all(place in octets for place in range(end))


# Each rule takes the case, its fragment, the fragments held for its datagram, and all datagrams
# held.

def F_DF(case, piece, pieces, held):
    return piece.df and piece.offset > 0


def F_EMPTY(case, piece, pieces, held):
    return len(piece.octets) == 0


def F_ALIGN(case, piece, pieces, held):
    return piece.mf and len(piece.octets) % 8 != 0


def F_BIG(case, piece, pieces, held):
    return piece.end > LARGEST_PAYLOAD


def F_END(case, piece, pieces, held):
    end = last_end(pieces)
    if end is not None and piece.end > end:
        return True
    if piece.mf:
        return False
    return (end is not None and end != piece.end) or any(place >= piece.end for place in octets_of(pieces))


def F_CLASH(case, piece, pieces, held):
    octets = octets_of(pieces)
    return any(octets.get(piece.offset + i, octet) != octet for i, octet in enumerate(piece.octets))


def F_MANY(case, piece, pieces, held):
    return not pieces and len(held) >= case.settings.frags


def F_ROOM(case, piece, pieces, held):
    used = sum(len(blocks_of(other)) for other in held.values())
    return len(blocks_of([piece]) - blocks_of(pieces)) > case.settings.frag_cells - used


FRAGMENT_DROPS = [F_DF, F_EMPTY, F_ALIGN, F_BIG, F_END, F_CLASH, F_MANY, F_ROOM]

FORGETTING = [F_END, F_CLASH]


def whole_datagram(ip, pieces):
    """The header fields and the payload of a datagram whose pieces are all here."""
    first = [piece for piece in pieces if piece.offset == 0][0]
    octets = octets_of(pieces)
    payload = bytes(octets[place] for place in range(last_end(pieces)))
    fields = SimpleNamespace(src=ip.src, dst=ip.dst, protocol=ip.protocol, ident=ip.ident,
                             tos=first.tos, ttl=first.ttl, df=first.df)
    return fields, payload


def offer_piece(case, held, now):
    """What becomes of a fragment: the name of a rule that drops it, "F_HELD", or the whole
    datagram."""
    key = datagram_key(case.ip)
    piece = read_piece(case, now)
    pieces = held.get(key, [])
    for rule in FRAGMENT_DROPS:
        if rule(case, piece, pieces, held):
            if rule in FORGETTING:
                held.pop(key, None)
            return rule.__name__
    if not is_whole(pieces + [piece]):
        held[key] = pieces + [piece]
        return "F_HELD"
    held.pop(key, None)
    return whole_datagram(case.ip, pieces + [piece])
