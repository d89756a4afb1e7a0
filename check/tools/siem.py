"""contrib/siem/norm-events, contrib/jq and contrib/community-id: the fields that each published
format has, of the right type, with the values of normview."""

import datetime
import importlib.machinery
import importlib.util
import ipaddress
import json
import os
import re
import zlib

from tools.common import CONTRIB, Test, few_runs, other_records, record_count, run, write

# How many of the random runs are taken: a filter is the same for each record.
ONE_OF = 10


def is_address(value):
    try:
        return bool(ipaddress.ip_address(value))
    except ValueError:
        return False


def is_port(value):
    return type(value) is int and 0 <= value < 65536


def is_text(value):
    return type(value) is str and value != ""


def one_of(*values):
    return lambda value: value in values


def some_of(*values):
    return lambda value: type(value) is list and value != [] and set(value) <= set(values)


def like(pattern):
    return lambda value: type(value) is str and re.fullmatch(pattern, value) is not None


# A field of each format, what it must be, and the names in normview's output without which it may
# be absent. EVE is as of Suricata 7 (its manual, "EVE JSON Format"), ECS as of 8.11 (its field
# reference), Zeek as its JSON logs and conn.log have it.
EVE = [
    ("timestamp", like(r"\d{4}-\d\d-\d\dT\d\d:\d\d:\d\d\.\d{6}[+-]\d{4}"), None),
    ("event_type", one_of("norm", "anomaly"), None),
    ("pcap_cnt", lambda value: type(value) is int and value > 0, None),
    ("pcap_filename", is_text, None),
    ("src_ip", is_address, "src_ip"), ("dest_ip", is_address, "dest_ip"),
    ("src_port", is_port, "src_port"), ("dest_port", is_port, "dest_port"),
    ("proto", like("TCP|UDP|ICMP|[0-9]+"), "proto"),
    ("flow_id", lambda value: type(value) is int and 0 < value < 2**53, "era"),
]

ECS = [
    ("@timestamp", like(r"\d{4}-\d\d-\d\dT\d\d:\d\d:\d\d\.\d{9}Z"), None),
    ("ecs.version", like(r"8\.\d+\.\d+"), None),
    ("event.kind", one_of("alert", "asset", "enrichment", "event", "metric", "state",
                          "pipeline_error", "signal"), None),
    ("event.category", some_of("network"), None),
    # The types that are expected beside the category `network`.
    ("event.type", some_of("access", "allowed", "connection", "denied", "end", "info", "protocol", "start"), None),
    ("event.outcome", one_of("success", "failure", "unknown"), None),
    ("event.action", is_text, None), ("event.module", is_text, None),
    ("event.dataset", is_text, None), ("observer.type", is_text, None),
    ("observer.product", is_text, None),
    ("related.ip", lambda value: type(value) is list and all(map(is_address, value)), "src_ip"),
    ("source.ip", is_address, "src_ip"), ("source.port", is_port, "src_port"),
    ("destination.ip", is_address, "dest_ip"), ("destination.port", is_port, "dest_port"),
    ("network.direction", one_of("inbound", "outbound", "unknown"), None),
    ("network.type", one_of("ipv4"), "src_ip"), ("network.iana_number", like("[0-9]+"), "proto"),
    ("rule.name", is_text, "rules"),
]

ZEEK = [
    ("_path", one_of("norm", "norm_conn"), None),
    ("ts", lambda value: type(value) in (int, float), None),
    ("uid", like("N[0-9a-f]{5}[ESR][0-9]+"), None),
    ("id.orig_h", is_address, "src_ip"), ("id.resp_h", is_address, "dest_ip"),
    ("id.orig_p", is_port, "src_port icmp_type"), ("id.resp_p", is_port, "dest_port icmp_type"),
    ("proto", like("tcp|udp|icmp|[0-9]+"), "proto"), ("is_orig", lambda value: type(value) is bool, None),
]

# The name of the capture that events are made with, and the number of the run that is made from it.
NAME = "in.pcap"

NUMBER = zlib.crc32(NAME.encode()) % 2**20

ANOMALIES = {"T_CLASH": {"type": "stream", "event": "stream.reassembly_overlap_different_data"},
             "F_CLASH": {"type": "decode", "event": "decoder.ipv4.frag_overlap"}}


def value_at(event, path):
    """The value of a field: under its whole name, or in objects."""
    if path in event:
        return event[path]
    for name in path.split("."):
        event = event.get(name) if isinstance(event, dict) else None
    return event


def compare_fields(test, name, fields, event, line):
    for path, right, needed in fields:
        value = value_at(event, path)
        wanted = needed is None or any(line[name] not in (None, []) for name in needed.split())
        test.same("%s: %s of record %d" % (name, path, line["record"]), (wanted, True),
                  (value is not None, value is None or right(value)))


# What a line of normview is in each format

def clash_of(line):
    return next((rule for rule in line["rules"] if rule in ANOMALIES), None)


def eve_values(line, _):
    number = None if line["era"] is None else NUMBER * 2**33 + line["era"] + 2**32 * (line["by"] == "second")
    return {"timestamp": line["time"][:26] + "+0000", "src_ip": line["src_ip"],
            "src_port": line["src_port"], "dest_ip": line["dest_ip"],
            "dest_port": line["dest_port"], "proto": line["proto"] and line["proto"].upper(),
            "flow_id": number, "pcap_cnt": line["record"],
            "pcap_filename": NAME, "icmp_type": line["icmp_type"], "icmp_code": line["icmp_code"]}


def eve_own(line):
    """The fields of a norm event, and those of the anomaly next to it."""
    own = [{"event_type": "norm", "norm.record": line["record"],
            "norm.frames_out": line["frames_out"], "norm.given": line["given"],
            "norm.verdict": line["verdict"], "norm.rules": line["rules"], "norm.changes": line["changes"]}]
    return own + [{"event_type": "anomaly", "anomaly": ANOMALIES[rule]} for rule in [clash_of(line)] if rule]


def ecs_values(line, _):
    inwards = {"in": "inbound", "out": "outbound", None: "unknown"}
    turned = {"in": "outbound", "out": "inbound", None: "unknown"}
    clash = clash_of(line)
    return {"@timestamp": line["time"], "source.ip": line["src_ip"],
            "source.port": line["src_port"], "destination.ip": line["dest_ip"],
            "destination.port": line["dest_port"], "event.action": line["verdict"], "event.sequence": line["record"],
            "event.kind": "alert" if clash else "event",
            "rule.name": clash or next(iter(line["rules"]), None), "file.path": NAME,
            "event.outcome": {"drop": "failure", "hold": "unknown"}.get(line["verdict"], "success"),
            "network.transport": line["proto"] if line["proto"] in ("tcp", "udp", "icmp") else None,
            "network.direction": (inwards if line["by"] == "first" else turned)[line["side"]],
            "norm.changes": line["changes"], "norm.rules": line["rules"]}


def zeek_uid(mark, number):
    return "N%05x%s%d" % (NUMBER, mark, number)


def zeek_values(line, origins):
    key = (line["by"], line["era"])
    names = ("icmp_type", "icmp_code") if line["proto"] == "icmp" else ("src_port", "dest_port")
    ends = [(line["src_ip"], line[names[0]]), (line["dest_ip"], line[names[1]])]
    if line["begun"] is not None:
        origins[line["by"], line["begun"]] = ends[0]
    turned = origins.get(key, ends[0]) != ends[0]
    orig, resp = ends[::-1] if turned else ends
    for one in line["ended"]:
        origins.pop((line["by"], one["era"]), None)
    mark = "R" if line["era"] is None else "S" if line["by"] == "second" else "E"
    return {"_path": "norm", "id.orig_h": orig[0], "id.orig_p": orig[1], "id.resp_h": resp[0],
            "id.resp_p": resp[1], "is_orig": not turned,
            "verdict": line["verdict"], "rules": line["rules"], "record": line["record"],
            "frames_out": line["frames_out"], "ended": line["ended"],
            "uid": zeek_uid(mark, line["record"] if mark == "R" else line["era"])}


def zeek_era(era):
    outside, inside = [(era[side + "_ip"], era[side + "_port"]) for side in ("outside", "inside")]
    orig, resp = (inside, outside) if era["opened"] == "out" else (outside, inside)
    return {"_path": "norm_conn",
            "uid": zeek_uid("S" if era["by"] == "second" else "E", era["era"]),
            "id.orig_h": orig[0], "id.orig_p": orig[1],
            "id.resp_h": resp[0], "id.resp_p": resp[1], "proto": "tcp", "sent": era["sent"],
            "octets": era["octets"], "end": era["end"],
            "records": era["records"], "rules": era["rules"]}


FORMATS = [("eve", EVE, eve_values), ("ecs", ECS, ecs_values), ("zeek", ZEEK, zeek_values)]


def seconds_of(text):
    whole = datetime.datetime.strptime(text[:19], "%Y-%m-%dT%H:%M:%S").replace(tzinfo=datetime.timezone.utc)
    return int(whole.timestamp()) + int(text[20:26]) / 1000000


def viewed(asked, folder, one):
    done = run([asked.normview, "--json", one.given, one.out, one.report], folder)
    return done.stdout, done.returncode


def whole_view(test, asked, folder, one):
    """The view of a run, which ends with 0 and has each of its records, and the eras that its
    summary counts."""
    octets, status = viewed(asked, folder, one)
    test.same("%s: normview's status" % one.name, 0, status)
    lines = list(map(json.loads, octets.splitlines()))
    records = [line for line in lines if line["event"] == "record" and line["by"] == "first"]
    test.same("%s: normview's records" % one.name, record_count(one), len(records))
    counted = [line["era_counts"]["all"] for line in lines if line["event"] == "summary"]
    test.same("%s: normview's eras" % one.name, counted, [sum(line["event"] == "era" for line in lines)])
    return octets


EVENTS = os.path.join(CONTRIB, "siem", "norm-events")


def events_of(folder, form, octets):
    done = run([EVENTS, "--name", NAME, form], folder, input=octets)
    return [json.loads(line) for line in done.stdout.splitlines()], done.returncode


def hosts_of(folder, octets):
    done = run(["jq", "-c", "-n", "-f", os.path.join(CONTRIB, "jq", "talkers.jq")], folder, input=octets)
    return [json.loads(line) for line in done.stdout.splitlines()], done.returncode


def compare_values(test, what, values, event):
    for path, value in values.items():
        test.same("%s: %s" % (what, path), value, value_at(event, path))


def compare_formats(test, folder, run_name, octets):
    lines = list(map(json.loads, octets.splitlines()))
    records, eras = ([line for line in lines if line["event"] == kind] for kind in ("record", "era"))
    for form, fields, values in FORMATS:
        events, status = events_of(folder, form, octets)
        more = {"eve": sum(clash_of(line) is not None for line in records), "ecs": 0, "zeek": len(eras)}[form]
        test.same("%s, %s: status and number" % (run_name, form), (0, len(records) + more), (status, len(events)))
        origins, left = {}, iter(events)
        for line in records:
            owns = eve_own(line) if form == "eve" else [{}]
            wanted = values(line, origins)
            for own in owns:
                event = next(left, {})
                compare_fields(test, "%s, %s" % (run_name, form), fields, event, line)
                compare_values(test, "%s, %s: record %d" % (run_name, form, line["record"]), {**wanted, **own}, event)
            if form == "zeek":
                test.same("%s: ts of record %d" % (run_name, line["record"]), True,
                          abs(event["ts"] - seconds_of(line["time"])) < 1e-6)
        for era in eras if form == "zeek" else []:
            compare_values(test, "%s, zeek: era %d" % (run_name, era["era"]), zeek_era(era), next(left, {}))


def talkers(lines):
    hosts = {}
    for line in lines:
        if line["src_ip"] is not None and line["by"] == "first":
            host = hosts.setdefault(line["src_ip"],
                                    {"host": line["src_ip"], "records": 0, "dropped": 0,
                                     "changed": 0, "octets": 0})
            host["records"] += 1
            host["dropped"] += line["verdict"] == "drop"
            host["changed"] += line["verdict"] == "fix"
            host["octets"] += line["length"]
    return sorted(hosts.values(), key=lambda host: (-host["records"], host["host"]))


def test_events(asked, folder):
    test = Test("norm-events: fields and values")
    before = None
    for one in few_runs(asked, folder, ONE_OF):
        compare_formats(test, folder, one.name, whole_view(test, asked, folder, one))
        if other_records(one, before):
            one.report = write(os.path.join(folder, "other.txt"), before.text.encode())
            octets, status = viewed(asked, folder, one)
            test.same("%s: report of another run: normview's status" % one.name, True, status != 0)
            for form, _, _ in FORMATS:
                test.same("%s: report of another run: the status of %s" % (one.name, form), True,
                          events_of(folder, form, octets)[1] != 0)
        before = one
    return test


def test_talkers(asked, folder):
    test = Test("jq: hosts")
    if test.lacks("jq"):
        return test
    for one in few_runs(asked, folder, ONE_OF):
        octets = whole_view(test, asked, folder, one)
        lines = [line for line in map(json.loads, octets.splitlines()) if line["event"] == "record"]
        test.same("%s: talkers.jq" % one.name, (talkers(lines), 0), hosts_of(folder, octets))
    return test


# Community ID

# Those published with version 1 of the specification: source, destination, protocol, ports or type
# and code, seed.
VECTORS = [
    ("128.232.110.120", "66.35.250.204", 6, (34855, 80), 0, "1:LQU9qZlK+B5F3KDmev6m5PMibrg="),
    ("66.35.250.204", "128.232.110.120", 6, (80, 34855), 0, "1:LQU9qZlK+B5F3KDmev6m5PMibrg="),
    ("128.232.110.120", "66.35.250.204", 6, (34855, 80), 1, "1:3V71V58M3Ksw/yuFALMcW0LAHvc="),
    ("192.168.1.52", "8.8.8.8", 17, (54585, 53), 0, "1:d/FP5EW3wiY1vCndhwleRRKHowQ="),
    ("192.168.1.52", "8.8.8.8", 17, (54585, 53), 1, "1:Q9We8WO3piVF8yEQBNJF4uiSVrI="),
    ("192.168.0.89", "192.168.0.1", 1, (8, 0), 0, "1:X0snYXpgwiv9TZtqg64sgzUn6Dk="),
    ("192.168.0.1", "192.168.0.89", 1, (0, 0), 0, "1:X0snYXpgwiv9TZtqg64sgzUn6Dk="),
    ("192.168.0.89", "192.168.0.1", 1, (8, 0), 1, "1:03g6IloqVBdcZlPyX8r0hgoE7kA="),
    ("fe80::200:86ff:fe05:80da", "fe80::260:97ff:fe07:69ea", 58, (135, 0), 0, "1:dGHyGvjMfljg6Bppwm3bg0LO8TY="),
    ("192.168.170.8", "192.168.170.56", 132, (7, 80), 0, "1:jQgCxbku+pNGw8WPbEc/TS/uTpQ="),
]

PROGRAM = os.path.join(CONTRIB, "community-id")

# After this number of comparisons further records show nothing new: the vectors have each kind.
MOST_IDS = 50


def module():
    loader = importlib.machinery.SourceFileLoader("community_id", PROGRAM)
    made = importlib.util.module_from_spec(importlib.util.spec_from_loader("community_id", loader))
    loader.exec_module(made)
    return made


def test_vectors(_, folder):
    test = Test("community-id: published vectors")
    for source, destination, protocol, ports, seed, wanted in VECTORS:
        test.same("%s > %s" % (source, destination), wanted,
                  module().community_id(source, destination, protocol, ports, seed))
        names = ("icmp_type", "icmp_code") if protocol in (1, 58) else ("src_port", "dest_port")
        event = {"src_ip": source, "dest_ip": destination, "proto": str(protocol),
                 names[0]: ports[0], names[1]: ports[1]}
        done = run([PROGRAM, str(seed)], folder, input=json.dumps(event).encode())
        test.same("%s > %s, as an object" % (source, destination), dict(event, community_id=wanted),
                  json.loads(done.stdout))
    return test


def is_whole_message(event):
    """Whether Wireshark has an ID of the same ends: of ICMP it is tried with echoes alone."""
    fragment = any(rule.startswith("F_") for rule in event["rules"])
    echo = event["proto"] == "icmp" and event["icmp_type"] in (0, 8)
    return (echo or event["proto"] in ("tcp", "udp")) and event["verdict"] != "drop" and not fragment


def test_community(asked, folder):
    """The IDs of a run's records against those of Wireshark, which has them for a capture; of a
    fragment Wireshark's has no ports."""
    test = Test("community-id: records, as tshark has them")
    if test.lacks("tshark"):
        return test
    for one in few_runs(asked, folder, ONE_OF):
        octets = whole_view(test, asked, folder, one)
        shown = run(["tshark", "--enable-protocol", "communityid", "-r", one.given, "-T", "fields",
                     "-E", "occurrence=f", "-e", "communityid"], folder)
        ids = shown.stdout.decode().splitlines()
        events = [json.loads(line) for line in run([PROGRAM], folder, input=octets).stdout.splitlines()]
        test.same("%s: number of objects" % one.name, len(octets.splitlines()), len(events))
        for event in events:
            if event["event"] == "record" and event["by"] == "first" and is_whole_message(event):
                test.same("%s: record %d" % (one.name, event["record"]), ids[event["record"] - 1],
                          event.get("community_id"))
        if test.compared > MOST_IDS:
            break
    return test


EVENT_TESTS = [test_events]

JQ_TESTS = [test_talkers]

COMMUNITY_TESTS = [test_vectors, test_community]
