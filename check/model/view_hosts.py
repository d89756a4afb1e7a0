"""The addresses of each side of a run that the most records are of."""

# Different addresses of a side that are counted; later new ones are not.
MOST_COUNTED = 65536

# Of these a summary has as many.
MOST_SHOWN = 3


def hosts_of(items, place):
    """Returns the addresses `outside` or `inside` that most records have, each with how many: the
    most first, of as many the smaller address. Items without a side or a header have none."""
    found = {}
    for item in items:
        if item.flow is None or item.entry.side == "-":
            continue
        is_source = (item.entry.side == "in") == (place == "outside")
        address = item.flow.src if is_source else item.flow.dst
        if address in found or len(found) < MOST_COUNTED:
            found[address] = found.get(address, 0) + 1
    return sorted(found.items(), key=lambda pair: (-pair[1], pair[0]))[:MOST_SHOWN]
