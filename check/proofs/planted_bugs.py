"""The wrong bodies that `check/proofs/edits --planted` tries: first those that docs/PROVED.md calls
planted, and then those that the gate does not try, since others do with less time. A bug that is a
must-fail edit refers to it."""

import os
from collections import namedtuple

from lib.programs import TOP

# The first word of a function is its crate.
Bug = namedtuple("Bug", "what function file old new")


def of_edit(what, function, name, old="", new=""):
    """The bug of a must-fail edit of one line; `new` takes the place of `old` in what it writes."""
    path = os.path.join(TOP, "crates", function.split("::")[0], "must-fail", name + ".edit")
    with open(path, encoding="utf-8") as file:
        file, line, wrong = (text.split(": ", 1)[1] for text in file.read().splitlines())
    return Bug(what, function, file, line, wrong.replace(old, new))


WRITE_READ = "    write_record(capture, head, input.seconds, input.fraction, input.bytes)"

PUT = """    put_parts(parts, payload, segment);
"""

SUM = """    let sum = sum_for(
        segment,
        pseudo_sum(parts.src, parts.dst, protocol::TCP, size as u16),
    );
"""

BUGS = [
    Bug("a fault of the report is answered as one of the capture", "bridge_run::stop::stop_at_sink", "src/stop.rt",
        "RelayFault::Report => Stop::Report,", "RelayFault::Report => stop_at_capture(offset),"),
    Bug("the last line has the number of records for that of frames", "bridge_run::runner::finish", "src/runner.rt",
        "        packets: frames,\n    };\n    let mut line",
        "        packets: u64::from(records),\n    };\n    let mut line"),
    Bug("the numbers of records and frames are exchanged", "rule_book::last::last_line", "src/last.rt",
        "line.part_number(records);\n            line.part_long_number(packets);",
        "line.part_long_number(packets);\n            line.part_number(records);"),
    Bug("a record is written twice", "both_sides::cut::write_read", "src/cut.rt", WRITE_READ,
        WRITE_READ + "?;\n" + WRITE_READ),
    of_edit("the second engine has the sides of the first", "both_sides::both::Both::open",
            "second_engine_has_the_sides_of_the_first"),
    Bug("every other frame is given to the second engine", "both_sides::both::Both::back", "src/both.rt",
        "self.had += 1;", "self.had += 2;"),
    Bug("a held fragment is a packet that passes", "norm_engine::engine::tell", "src/engine.rt",
        "stopped(Some(side), Verdict::Hold, Rule::FHeld, entry),", "written(Some(side), entry),"),
    Bug("a fragment's offset is counted in 4 octets", "ipv4_codec::header::store_fields", "src/header.rt",
        "head.offset = 8 * u32", "head.offset = 4 * u32"),
    Bug("an era number is given twice", "tcp_norm::state::TcpNorm::begin", "src/begin.rt",
        "        self.begun = number;\n", ""),
    Bug("the cells of an era that ends stay taken", "tcp_norm::state::TcpNorm::end", "src/begin.rt",
        "forget_all(ChainId(slot.0));", "forget_all(ChainId(slot.0 / 2));"),
    Bug("an era is idle one second early", "tcp_norm::state::TcpNorm::is_idle", "src/expire.rt",
        "u64::from(self.limits.idle) < u64::from(now)", "u64::from(self.limits.idle) <= u64::from(now)"),
    Bug("neither a RST nor its probe goes out", "tcp_norm::state::TcpNorm::emit", "src/emit.rt",
        "put_probe(arrival, hops, Some(probe), out);\n",
        "put_probe(arrival, hops, Some(probe), out);\n                    out.clear();\n"),
    Bug("the FIN is kept at the first octet of its segment", "era_state::offset::Interval::end_after",
        "src/offset.rt", "if self.fin { Some(self.hi) }", "if self.fin { Some(self.lo) }"),
    Bug("a low TTL is raised to `--hops`", "ip_rules::write::raised", "src/write.rt",
        "head.ttl.max(hops + 1)", "head.ttl.max(hops)"),
    Bug("a checksum is computed before the octets are written", "tcp_codec::write::write_segment", "src/write.rt",
        PUT + SUM, SUM + PUT),
    Bug("microseconds are read as nanoseconds", "pcapng_file::content::timed_says", "src/content.rt",
        "let each = if interface.nano { 1 } else { 1_000 };", "let each = if interface.nano { 1 } else { 1 };"),
    # Those that were must-fail edits, in crates of which the gate tries none: each paid another
    # check of its crate.
    Bug("a fragment that differs is reported under another rule", "norm_engine::engine::tell", "src/engine.rt",
        "Decision::Drop(side, rule) => stopped(side, Verdict::Drop, rule, entry),",
        "Decision::Drop(side, rule) => stopped(side, Verdict::Drop, "
        "if rule == Rule::FClash { Rule::FEnd } else { rule }, entry),"),
    Bug("the addresses of a quote are exchanged", "norm_engine::judge::quotes_live", "src/judge.rt",
        "outside: quote.dst,", "outside: quote.src,"),
    Bug("a rewritten packet is written as it was read", "norm_engine::send::send", "src/send.rt",
        "send_mended(packet, mend, hops, link, scratch, out);",
        "ip_rules::write::put_read(&packet.frame[..packet.frame.len().min(65549)], out);"),
    Bug("a complete datagram is held again", "norm_engine::judge::judge_piece", "src/judge.rt",
        "let octets = &buffer[..whole.len];",
        "let _again = pieces.offer(now, &piece_of(&parsed.packet), &mut *buffer); let octets = &buffer[..whole.len];"),
    Bug("an era that began is written as that of the record", "rule_book::entry::line_of", "src/entry.rt",
        "put_era(&mut line, b'+', entry.begun);", "put_era(&mut line, b'@', entry.begun);"),
    Bug("a report may skip a record", "rule_book::report::read_lines", "src/report.rt",
        "if u64::from(entry.number) + 1 != line {", "if u64::from(entry.number) + 1 < line {"),
    Bug("a classic file is read under `--inside`", "capture_input::opening::open_classic", "src/opening.rt",
        "if inside.is_some() {", "if inside.is_some() && inside.is_none() {"),
    Bug("a malformed first block has the offset 0",
        "capture_input::fault::OpenFaultFromPcapng_fileOpenFault::from", "src/fault.rt",
        "offset: stop.offset,", "offset: 0 * stop.offset,"),
    Bug("the first octets of a section are lost", "capture_input::opening::open_sections", "src/opening.rt",
        "let reader = NgReader::open_behind(inside, first, source)?;",
        "let reader = NgReader::open_behind(inside, &first[..0], source)?;"),
    Bug("classic files are read as pcapng", "capture_input::input::Input::open", "src/input.rt",
        "if first[..count] == SECTION[..] {", "if count == 4 && first[..count] != SECTION[..] {"),
]

# `run` with one answer for all words; the gate tries 3 and 5.
BUGS += [
    of_edit("`run` always answers %d" % status, "bridge_run::runner::run", "always_answers_3",
            "return 3;", "return %d;" % status)
    for status in (2, 4, 6, 7)
]
