"""Laws of a view: its text, its JSON, its tables and its summary say one thing, a choice chooses
whole records, and a frame is its record with the changes, or one that norm made."""

import ipaddress
import json

from against_model.evidence_laws import end_law, evidence_law, hosts_law, types_law
from model.capture import ETHERNET, read_head, read_records
from model.formats import four, two
from model.run import read_input
from model.sentences import SENTENCES
from model.view import view
from model.view_fields import ADDRESSES, CHECKSUMS, HEX, LETTERS, fields_of, is_decimal, value_text
from model.view_lists import VERDICTS

NAMES = ["IN", "OUT", "REPORT"]

MADE = ("probe", "datagram")


def broken_law(files):
    """The first law that the model breaks on these three files, or None. A view that stops has none
    but that of its end."""
    try:
        return broken_of_whole(files)
    except AssertionError as broken:
        return str(broken)


def broken_of_whole(files):
    status, summary = view(NAMES, files)
    every = view(["--side", "in,out,-"] + NAMES, files)
    as_json = view(["--json"] + NAMES, files)
    evidence = view(["--json", "--evidence"] + NAMES, files)
    types_law([json.loads(line) for line in (as_json[1] + evidence[1]).splitlines()])
    tables = [view(["--table", name] + NAMES, files) for name in ("records", "eras")]
    if {answer[0] for answer in (every, as_json, *tables)} != {status}:
        return "the status depends on the words"
    if status != 0:
        return stop_law(status, summary, as_json[1], [every[1], tables[0][1], tables[1][1]])
    values = [json.loads(line) for line in as_json[1].splitlines()]
    records = [value for value in values if value["event"] == "record"]
    eras = [value for value in values if value["event"] == "era"]
    notes = [value for value in values if value["event"] == "note"]
    if ([value["event"] for value in values]
            != ["record"] * len(records) + ["summary"] + ["era"] * len(eras) + ["note"] * len(notes)):
        return "objects in another order"
    lines = summary.splitlines()
    text, said = lines[:len(lines) - len(notes)], lines[len(lines) - len(notes):]
    return (text_law(records, every[1]) or summary_law(records, values[len(records)], eras, text, files)
            or table_law(records, tables[0][1]) or table_law(eras, tables[1][1])
            or choice_law(records, files) or frames_law(records, eras, files)
            or notes_law(records, notes, said, files) or evidence_law(records, evidence, files)
            or end_law(text[:-len(eras) or None], said, files)
            or hosts_law(records, values[len(records)]))


def stop_law(status, summary, as_json, texts):
    if summary.count("\n") != 1 or any(text.splitlines()[-1] + "\n" != summary for text in texts):
        return "another last line"
    return (None if json.loads(as_json.splitlines()[-1]) == {"event": "stop", "status": status, "reason": summary[:-1]}
            else "another stop as JSON")


# The text is that of the JSON

def ends(value, names, joint):
    places = [(value[name + "_ip"], value[name + "_port"]) for name in names]
    return joint.join(("-" if ip is None else ip) + ("" if port is None else ":%d" % port) for ip, port in places)


def marks(value):
    """The protocol or the type in the header of the link, and of TCP the flags and the numbers."""
    text = "" if value["flags"] is None else " %s seq %d ack %d" % (value["flags"], value["seq"], value["ack"])
    kind = value.get("ethertype")
    return (value["proto"] or ("-" if kind is None else kind if kind == "arp" else "ethertype " + kind)) + text


def more_marks(value):
    words = ["%s %d" % (word, value[name])
             for word, name in [("window", "window"), ("type", "icmp_type"), ("code", "icmp_code"),
                                ("id", "id"), ("offset", "offset")]
             if value[name] is not None]
    return words + ["more"] * (value["more"] is True)


def octets_text(value):
    """The text of octets, and how many they are more; the object has all of them."""
    octets = bytes.fromhex(value["hex"])
    text = "".join({34: '\\"', 92: "\\\\"}.get(octet, chr(octet) if 32 <= octet < 127 else "\\x%02x" % octet)
                   for octet in octets[:64])
    assert (text, len(octets)) == (value["text"], value["length"]), "a text of octets says otherwise than their digits"
    return '"%s"' % text + (" and %d more" % (len(octets) - 64) if len(octets) > 64 else "")


def change(value):
    if value["field"] in MADE:
        assert value["compared"] is False, "a frame that norm made is compared"
        proto = "" if value["proto"] is None else " " + marks(value)
        return (value["field"] + proto + " len %d" % value["length"]
                + {"probe": "", "datagram": ", compared with no record"}[value["field"]])
    if value["field"] == "fragment":
        return "fragment " + run_text(value)
    if value["field"] != "payload":
        return ("%s %s > %s"
                % (value["field"], *("-" if value[name] is None else value[name] for name in ("from", "to"))))
    parts = ["%s %d %s" % (name, value[name]["length"], octets_text(value[name]))
             for name in ("front", "end", "longer") if value[name]]
    return " ".join(["payload"] + parts + [run_text(run) for run in value["replaced"]])


def run_text(run):
    text = "at %d %s > %s" % (run["at"], octets_text(run["from_octets"]), octets_text(run["to_octets"]))
    return text + ("" if run["first"] is None else " first %d" % run["first"])


def record_line(value):
    number = {"first": "%d", "second": "%%d/%d" % value["number"]}[value["by"]] % value["record"]
    words = [number, value["time"], value["side"] or "-", ends(value, ("src", "dest"), " > "), marks(value),
             *more_marks(value)]
    words += ["len %d" % value["length"], value["verdict"]]
    words += ["%s %d" % (word, value[name]) for word, name in (("era", "era"), ("begins era", "begun"))
              if value[name] is not None]
    words += ["ends era %d %s" % (end["era"], end["reason"])
              + ("" if end["octets"] is None else " octets %d" % end["octets"])
              for end in value["ended"]]
    words += ["%s (%s)" % (rule, SENTENCES[rule]) for rule in value["rules"]]
    words.append("frames %d" % value["frames"] if value["given"] is None else "given %d" % value["given"])
    if value["frames_out"] is not None:
        words.append("out "
                     + "-".join(str(number)
                                for number in dict.fromkeys([value["frames_out"][0], value["frames_out"][-1]])))
    parts = ["frame %d %s" % (frame, ", ".join(change(one) for one in value["changes"] if one["frame"] == frame))
             for frame in range(1, value["frames"] + 1) if frame in [one["frame"] for one in value["changes"]]]
    parts += [change(one) for one in value["changes"] if one["frame"] is None]
    if parts and value["changes_by"] == "both":
        parts[0] = "by both engines: " + parts[0]
    return "; ".join([" ".join(words)] + parts)


def text_law(records, text):
    wanted = ([record_line(value) for value in records]
              + ["chosen %d" % sum(value["by"] == "first" for value in records)])
    return None if text.splitlines() == wanted else "the text of the records says otherwise than the JSON"


# A table is that of the JSON

def cell(name, value):
    if value is None or value == []:
        return "-"
    if name == "changes":
        return ",".join("%s:%s" % ("-" if one["frame"] is None else one["frame"], one["field"]) for one in value)
    if name == "ended":
        return ",".join(":".join(str(part) for part in (one["era"], one["reason"], one["octets"]) if part is not None)
                        for one in value)
    if name == "frames_out":
        return "-".join(str(number) for number in dict.fromkeys([value[0], value[-1]]))
    if isinstance(value, bool):
        return str(value).lower()
    return ",".join(value) if isinstance(value, list) else str(value)


def table_law(values, text):
    heading, *rows = [line.split("\t") for line in text.splitlines()]
    if heading[:2] not in (["record", "by"], ["era", "by"]):
        return "another heading"
    wanted = [[cell(name, value[name]) for name in heading] for value in values]
    same_names = all(["event"] + heading == list(value) for value in values)
    return None if rows == wanted and same_names else "a table says otherwise than the JSON"


# A choice has all lines of each record that meets it

def of_network(value, network):
    return any(value[name] is not None and ipaddress.ip_address(value[name]) in network
               for name in ("src_ip", "dest_ip"))


def eras_of(value):
    return [value["era"], value["begun"]] + [end["era"] for end in value["ended"]]


CHOICES = [
    (["--only=fix,drop"], lambda lines: any(line["verdict"] in ("fix", "drop") for line in lines)),
    (["--only", "pass"], lambda lines: any(line["verdict"] == "pass" for line in lines)),
    (["--rule=T_CLASH,T_OLD,C_PROBE"],
     lambda lines: any(rule in ("T_CLASH", "T_OLD", "C_PROBE") for line in lines for rule in line["rules"])),
    (["--era=1"], lambda lines: 1 in eras_of(lines[0])),
    (["--era", "second:1"], lambda lines: any(1 in eras_of(line) for line in lines[1:])),
    (["--side=in,-"], lambda lines: lines[0]["side"] in ("in", None)),
    (["--host", "10.0.0.0/8"], lambda lines: of_network(lines[0], ipaddress.ip_network("10.0.0.0/8"))),
    (["--host=198.51.100.7"], lambda lines: of_network(lines[0], ipaddress.ip_network("198.51.100.7/32"))),
    (["--side", "out", "--only=pass,drop", "--era=2"], lambda lines: lines[0]["side"] == "out"
     and any(line["verdict"] in ("pass", "drop") for line in lines)
     and 2 in eras_of(lines[0])),
]


def groups_of(records):
    """The lines of each record."""
    groups = {}
    for value in records:
        groups.setdefault(value["record"], []).append(value)
    return list(groups.values())


def choice_law(records, files):
    for words, meets in CHOICES:
        chosen = [lines for lines in groups_of(records) if meets(lines)]
        wanted = [line for lines in chosen for line in lines] + [{"event": "chosen", "records": len(chosen)}]
        if [json.loads(line) for line in view(["--json"] + words + NAMES, files)[1].splitlines()] != wanted:
            return " ".join(words) + " chooses other records"
    return None


# The summary is that of the report and of the JSON

def side_lines(lines, lead):
    """The counts of the verdicts, of these lines of the report."""
    words = [line.split(" ")[1:3] for line in lines]
    return ["%s%s %s"
            % (lead, side, " ".join("%s %d" % (verdict, words.count([side, verdict])) for verdict in VERDICTS))
            for side in ("in", "out", "-")]


def era_line(value):
    words = ["era", "second"] if value["by"] == "second" else ["era"]
    words += ([str(value["era"]), ends(value, ("outside", "inside"), " <-> ")]
              + (["opened " + value["opened"]] if value["opened"] else []))
    words += [value["first"] or "-", value["last"] or "-", "records %d" % value["records"], "sent %d" % value["sent"]]
    return " ".join(words + (["octets %d" % value["octets"]] if value["octets"] is not None else []) + [value["end"]]
                    + value["rules"])


def counted(value, name):
    """The line of sides that this object is of."""
    side = name.replace("second_", "").replace("_lines", "").replace("neither", "-")
    return ([("second " if name.startswith("second") else "") + side
             + "".join(" %s %d" % pair for pair in value[name].items())] if value[name] else [])


def summary_text(value):
    """The lines of the object."""
    sides = ("in_lines", "out_lines", "neither_lines", "second_in_lines", "second_out_lines",
             "second_neither_lines")
    texts = ["records %d" % value["records"]] + [line for name in sides for line in counted(value, name)]
    texts += ["frames %d" % value["frames"]] + (["unfinished %d" % value["unfinished"]] if value["unfinished"] else [])
    texts += ["ethertype %s %d" % (one["type"], one["count"]) for one in value["types"]]
    texts += ["protocol %d %d" % (one["protocol"], one["count"]) for one in value["protocols"]]
    texts += [side + " " + ", ".join("%s %d" % (one["ip"], one["count"]) for one in value[side + "_hosts"])
              for side in ("outside", "inside") if value[side + "_hosts"]]
    texts += ["rule %s %d (%s)" % (one["rule"], one["in"] + one["out"] + one["neither"], SENTENCES[one["rule"]])
              for one in value["rule_counts"]]
    eras = value["era_counts"]
    return texts + ["eras %d" % eras["all"]
                    + "".join(" %s %d" % (end, eras[end]) for end in ("live", "reset", "evicted", "idle", "reopened"))
                    + " opened"
                    + "".join(" %s %d" % (way, eras["opened_" + way]) for way in ("in", "out", "mid"))]


def not_judged(records, value, link):
    """The lines of what was not judged; of the fragments only whether there may be this number."""
    firsts = [one for one in records if one["by"] == "first"]
    held = sum("F_HELD" in one["rules"] for one in firsts)
    assert 0 <= value["unfinished"] <= held, "more unfinished fragments than are held"
    frames = [one for one in firsts if "L_TYPE" in one["rules"] and link == ETHERNET]
    types = [2054 if one["ethertype"] == "arp" else int(one["ethertype"], 16) for one in frames if one["ethertype"]]
    packets = [one for one in firsts if "P_PROTO" in one["rules"] and one["proto"]]
    numbers = [{"icmp": 1, "tcp": 6, "udp": 17}.get(one["proto"]) or int(one["proto"]) for one in packets]
    lines = ["unfinished %d" % value["unfinished"]] if value["unfinished"] else []
    lines += ["ethertype 0x%04x %d" % (kind, types.count(kind)) for kind in dict.fromkeys(types)]
    lines += ["protocol %d %d" % (number, numbers.count(number)) for number in dict.fromkeys(numbers)]
    return lines + [line for line in summary_text(value) if line.startswith(("outside ", "inside "))]


def summary_law(records, value, eras, text, files):
    lines = files[2].decode("ascii").splitlines()
    both, last, lines = lines[0].endswith(" both"), lines[-1].split(" "), lines[1:-1]
    behind = [line for line in lines if line.startswith("/")]
    wanted = ["records " + last[1]] + side_lines([line for line in lines if line not in behind], "")
    wanted += side_lines(behind, "second ") if both else []
    named = [(word, line.split(" ")[1]) for line in lines for word in line.split(" ") if word in SENTENCES]
    rules = list(dict.fromkeys(rule for rule, _ in named))
    wanted += ["frames " + last[2]] + not_judged(records, value, read_input(files[0], None)[0].link)
    wanted += ["rule %s %d (%s)" % (rule, sum(rule == one for one, _ in named), SENTENCES[rule]) for rule in rules]
    found, ways = [era["end"] for era in eras], [era["opened"] for era in eras]
    wanted.append(" ".join(["eras %d" % len(eras)]
                           + ["%s %d" % (end, found.count(end))
                              for end in ("live", "reset", "evicted", "idle", "reopened")]
                           + ["opened"] + ["%s %d" % (way, ways.count(way)) for way in ("in", "out", "mid")]))
    if text != wanted + [era_line(era) for era in eras] or summary_text(value) != wanted:
        return "the summary is not that of the report"
    counts = [[named.count((rule, side)) for side in ("in", "out", "-")] for rule in rules]
    if [[one[name] for name in ("in", "out", "neither")] for one in value["rule_counts"]] != counts:
        return "the rules have other sides than in the report"
    numbers = [("/%d" if one["by"] == "second" else "%d") % one["number"] for one in records]
    if numbers != [line.split(" ")[0] for line in lines]:
        return "other records than the report has lines"
    ended = {(one["by"], end["era"]): (end["reason"], end["octets"]) for one in records for end in one["ended"]}
    if any(ended.get((era["by"], era["era"]), ("live", None)) != (era["end"], era["octets"]) for era in eras):
        return "an era has another end than its record says"
    return (None if sorted(eras, key=lambda era: era["by"]) == eras
            else "an era of the second engine before one of the first")


# The notes are those of --notes, and what one counts by a rule is not more than lines have

EARLY = set("L_SNAP L_SHORT L_TYPE I_SHORT I_VERSION I_HLEN I_LEN I_SUM I_SRC I_DST I_SIDE "
            "I_OPT_BAD I_ROUTE P_PROTO".split())

ALONE = {"tagged": "L_TYPE", "ipv6": "L_TYPE", "tunnels": "P_PROTO", "foreign": "I_SIDE", "cut": "L_SNAP"}

NOTES = ["lost", "order", "half", "one", "card", "wrong", "twice", "foreign", "tagged", "ipv6", "tunnels", "full",
         "cut", "unjudged"]

HARMLESS = ["tagged", "ipv6", "tunnels"]


def note_text(value):
    counts = " ".join("%s %d" % (key.replace("_", "-"), count) for key, count in value.items() if type(count) is int)
    if value.get("by_rule"):
        counts += " rules " + ", ".join("%s %d" % (one["rule"], one["count"]) for one in value["by_rule"])
    return "note %s %s: %s" % (value["note"], counts, value["advice"])


def total_of(note):
    return sum(count for count in note.values() if type(count) is int)


def notes_law(records, notes, said, files):
    """`said`: the last lines of the text."""
    found = [value["note"] for value in notes]
    firsts = [one for one in records if one["by"] == "first"]
    status = 10 if any(value["note"] not in HARMLESS or 2 * total_of(value) >= len(firsts) for value in notes) else 0
    if (view(["--notes"] + NAMES, files) != (status, "".join(line + "\n" for line in said))
            or said != [note_text(value) for value in notes]):
        return "the notes alone, as text or as JSON are others"
    as_json = view(["--notes", "--json"] + NAMES, files)
    if (as_json[0], [json.loads(line) for line in as_json[1].splitlines()]) != (status, notes):
        return "the notes alone as JSON are others"
    if found != [name for name in NOTES if name in found] or ("lost" in found and "half" in found):
        return "notes in another order, or two that are not beside each other"
    early = [one for one in firsts if one["verdict"] == "drop" and set(one["rules"]) & EARLY]
    if ("unjudged" in found) != (2 * len(early) >= len(firsts)):
        return "unjudged is there of another part of all records"
    for name, rule in ALONE.items():
        count = sum(total_of(value) for value in notes if value["note"] == name)
        if count > sum(rule in one["rules"] for one in firsts):
            return "%s counts more than lines have %s" % (name, rule)
    return None


# A frame is its record with the changes

def number_of(field, text, number):
    """The octets or the number of a value in JSON, which has the number of a decimal text."""
    if is_decimal(field):
        assert text == str(number), "a text and a number that differ"
        return number
    assert number is None, "a number of a text that is not decimal"
    if field in HEX:
        return bytes.fromhex(text)
    if field in CHECKSUMS:
        return int(text, 16)
    if field in ADDRESSES:
        return int.from_bytes(bytes(int(part) for part in text.split(".")), "big")
    return sum(flag for letter, flag in LETTERS if letter in text)


def octets_of(have, payload):
    """The frame of these fields."""
    octets = have.get("link", b"")
    if "version" in have:
        marks = have["reserved_bit"] * 32768 + have["dont_fragment"] * 16384 + have["more_fragments"] * 8192
        marks += have["fragment_offset"] // 8
        octets += (bytes([have["version"] * 16 + have["header_length"] // 4, have["type_of_service"]])
                   + two(have["total_length"]))
        octets += (two(have["identification"]) + two(marks) + bytes([have["ttl"], have["protocol"]])
                   + two(have["header_checksum"]))
        octets += four(have["source"]) + four(have["destination"]) + have.get("ip_options", b"")
    if "source_port" in have:
        octets += two(have["source_port"]) + two(have["destination_port"])
    if "sequence" in have:
        octets += (four(have["sequence"]) + four(have["acknowledgment"])
                   + bytes([have["data_offset"] * 4 + have["reserved"], have["flags"]]))
        octets += (two(have["window"]) + two(have["checksum"]) + two(have["urgent_pointer"])
                   + have.get("tcp_options", b""))
    if "udp_length" in have:
        octets += two(have["udp_length"]) + two(have["checksum"])
    return octets + payload + have.get("trailer", b"")


def octets_had(value):
    return b"" if value is None else bytes.fromhex(value["hex"])


def changed_payload(payload, value):
    """The payload with its change."""
    front, end = octets_had(value["front"]), octets_had(value["end"])
    assert payload.startswith(front) and payload.endswith(end), "other octets were cut off"
    octets = bytearray(payload)
    for run in value["replaced"]:
        before, after = octets_had(run["from_octets"]), octets_had(run["to_octets"])
        place = slice(run["at"], run["at"] + len(before))
        assert octets[place] == before and len(before) == len(after), "other octets were replaced"
        octets[place] = after
    return bytes(octets[len(front):len(octets) - len(end)]) + octets_had(value["longer"])


def rebuilt(link, record, changes):
    have = fields_of(link, record)
    payload = have.pop("payload")
    for value in changes:
        field = value["field"]
        if field == "payload":
            payload = changed_payload(payload, value)
            continue
        before, after = (None if value[name] is None else number_of(field, value[name], value[name + "_number"])
                         for name in ("from", "to"))
        assert before == have.get(field), "another value was changed"
        have[field] = after
    have = {name: value for name, value in have.items() if value is not None}
    return octets_of(have, payload)


def made_here(value, number):
    """Whether this line's verdict and rules say that its frame with this number is a probe or a
    datagram: which, or None."""
    if value["verdict"] == "drop":
        return "probe"
    if "C_PROBE" in value["rules"] and number == value["frames"]:
        return "probe"
    return "datagram" if "F_DONE" in value["rules"] else None


def made(before, value, last, number):
    """The same of a line of any engine; `before` is that of the first engine, and `last` says that
    no more of its frames have a line."""
    if value["by"] == "second" and before["verdict"] == "drop":
        return "probe"
    if value["by"] == "second" and last and "C_PROBE" in before["rules"]:
        return "probe"
    one = made_here(value, number)
    return one or ("datagram" if value["by"] == "second" and "F_DONE" in before["rules"] else None)


def headers_of(link, frame):
    """What a frame's headers say: as `fields_of` has it, in the texts of JSON."""
    fields = fields_of(link, frame)
    texts = {name: value_text(name, fields[name]) for name in ("protocol", "flags") if name in fields}
    proto = {"6": "tcp", "17": "udp", "1": "icmp"}.get(texts.get("protocol"), texts.get("protocol"))
    return {"proto": proto, "flags": texts.get("flags"), "seq": fields.get("sequence"),
            "ack": fields.get("acknowledgment"),
            "length": len(fields["payload"]), "compared": False}


def frame_law(link, octets, frame, changes, kind):
    """The frame is the record with the changes; or the one change names what norm made."""
    if kind is not None:
        return (None
                if [dict(value, frame=0) for value in changes] == [dict(headers_of(link, frame), field=kind, frame=0)]
                else "is no " + kind)
    if any(value["field"] in MADE for value in changes):
        return "is one that norm made"
    if rebuilt(link, octets, changes) != frame:
        return "is not the record with its changes"
    return None if (changes == []) == (octets == frame) else "is equal and has changes, or is not and has none"


def counted_lines(records, both):
    """Each line that counts frames in OUT, with that of the first engine, and whether it is the
    last one of its record."""
    if not both:
        return [(value, value, True) for value in records]
    firsts = {value["record"]: value for value in records if value["by"] == "first"}
    behind = [value for value in records if value["by"] == "second"]
    return [(firsts[value["record"]], value, following is None or following["record"] != value["record"])
            for value, following in zip(behind, behind[1:] + [None])]


def frames_law(records, eras, files):
    head, source, _, _ = read_input(files[0], None)
    both = files[2].startswith(b"norm 2 both")
    frames = [record.octets for record in read_records(files[1], read_head(files[1]))[0]]
    if both and any(value["changes"] for value in records if value["by"] == "first"):
        return "what the first engine wrote has changes"
    if any((value["changes_by"] == "both") != (value["by"] == "second") for value in records):
        return "a line has the changes of other engines"
    if both and any((value["given"], value["frames_out"]) != (value["frames"], None) for value in records
                    if value["by"] == "first"):
        return "a line of the first engine of two has frames in OUT"
    sent, taken = {(value["by"], value["era"]): 0 for value in eras}, 0
    for before, value, last in counted_lines(records, both):
        octets = source[value["record"] - 1].octets
        if rebuilt(head.link, octets, []) != octets:
            return "the fields of record %d are not its octets" % value["record"]
        numbers = list(range(taken + 1, taken + value["frames"] + 1)) or None
        if value["given"] is not None or value["frames_out"] != numbers:
            return "record %d: other numbers in OUT" % value["record"]
        taken += value["frames"]
        for number in range(1, value["frames"] + 1):
            frame, changes = frames.pop(0), [one for one in value["changes"] if one["frame"] == number]
            if before["verdict"] == value["verdict"] == "pass" and frame != octets:
                return "record %d: it passed, and frame %d differs" % (value["record"], number)
            fault = frame_law(head.link, octets, frame, changes, made(before, value, last, number))
            if fault is not None:
                return "record %d: frame %d %s" % (value["record"], number, fault)
            add_octets(sent, [value] if before is value else [before, value], fields_of(head.link, frame))
    if frames:
        return "frames of no record"
    return None if sent == {(value["by"], value["era"]): value["sent"] for value in eras} else "eras have other octets"


def add_octets(sent, lines, fields):
    """Adds the octets of a frame to the eras of the lines that it is of, where these are
    inbound."""
    for line in lines:
        if line["side"] == "in" and line["era"] is not None and "sequence" in fields:
            sent[line["by"], line["era"]] += len(fields["payload"])
