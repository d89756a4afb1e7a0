"""False programs: scripts around the built ones, each wrong in one way. check/proofs/claims.py says
which claim of which check each of them contradicts."""

PROGRAMS = ("norm", "normaudit", "normview")

# A check whose run is killed kills the built program, too.
HEAD = """#!/bin/bash
real=%s
run() { setpriv --pdeathsig KILL "$real" "$@"; }
"""

# The words of a run of norm up to IN are left out.
ENDS = """run "$@"; status=$?
[ "${1-}" = run ] && [ $status -eq 0 ] || exit $status
shift
while case ${1-} in --offload | --both | --*=*) shift ;; --*) shift 2 ;; *) false ;; esac; do :; done
[ -f "${2-}" ] || exit $status
"""

REFUSES = """for word; do case $word in %s | %s=*) echo 'stop words 1'; exit 2 ;; esac; done
run "$@"
"""

# Leaves out an option that is one word, or two.
WITHOUT = """words=()
while [ $# -gt 0 ]; do case $1 in %s) shift %d ;; %s=*) shift ;; *) words+=("$1"); shift ;; esac; done
run "${words[@]}"
"""

# A run with one prefix has a file in place of IN or OUT, the word with this number from the end.
SPOOLED = """words=("$@")
spool=$(mktemp) at=$(($# - %d))
name=${words[at]} words[at]=$spool
"""

# OUT is the word before the one prefix.
ENDS_AT = """words=("$@")
out=${words[$# - 2]}
"""

# What norm says on standard error is changed, and its output is not.
SAYS = """{ run "$@" 2>&1 >&3 3>&- | sed -E %s >&2; status=${PIPESTATUS[0]}; } 3>&1
exit $status
"""

# Another status takes the place of one.
ANSWERS = """run "$@"; status=$?
[ $status -ne %d ] || exit %d
exit $status
"""

STATUS, NOTHING, LAST = 'run "$@"; exit 9\n', "exit 0\n", 'run "$@" | sed \'$d\'; exit "${PIPESTATUS[0]}"\n'

# Python reads and changes OUT, whose name is its argument; `records` are its records with their
# heads, and `at` where each begins.
RECORDS = """python3 - "$2" << 'P'
import struct, sys
with open(sys.argv[1], "rb") as file:
    octets = file.read()
at, records = [], []
while (at[-1] + len(records[-1]) if at else 24) < len(octets):
    at.append(at[-1] + len(records[-1]) if at else 24)
    records.append(octets[at[-1]:at[-1] + 16 + struct.unpack_from("<I", octets, at[-1] + 8)[0]])
%s
with open(sys.argv[1], "r+b") as file:
    file.truncate(len(octets))
    file.write(octets)
P
"""

OF_ANY = {"always ends with 9": STATUS, "writes nothing": NOTHING, "drops the last line": LAST}

NORM = {
    "gives each refusal the number 1":
        'run "$@" | sed -E "s/^stop words [0-9]+$/stop words 1/"; exit "${PIPESTATUS[0]}"\n',
    "has one cell": '[ "${1-}" != run ] || set -- run --cells 1 "${@:2}"\nrun "$@"\n',
    "ignores --both": WITHOUT % ("--both", 1, "--both"),
    "ignores --inside": WITHOUT % ("--inside", 2, "--inside"),
    "ignores --mtu": WITHOUT % ("--mtu", 2, "--mtu"),
    "ignores --seed": WITHOUT % ("--seed", 2, "--seed"),
    "makes each load from the seed 1": '[ "${1-}" != load ] || [ $# -ne 3 ] || set -- load 1 "$3"\nrun "$@"\n',
    "reads no pcapng": """for word; do
    if [ -f "$word" ] && [ "$(head -c 4 -- "$word" | od -An -tx1 | tr -d ' ')" = 0a0d0d0a ]; then
        printf 'norm 2\\nstop magic 0\\n'; exit 3
    fi
done
run "$@"
""",
    "changes one octet of OUT": ENDS + """size=$(stat -c %s -- "$2")
[ "$size" -gt 40 ] || exit 0
last=$(tail -c 1 -- "$2" | od -An -tu1)
printf "\\\\x$(printf %02x $(((last + 1) % 256)))" | dd of="$2" bs=1 seek=$((size - 1)) conv=notrunc status=none
""",
    "adds 3,600 s to the times of pcapng files": ENDS + """case $1 in *.pcapng) ;; *) exit 0 ;; esac
""" + RECORDS % """octets = octets[:24] + b"".join(struct.pack("<I", struct.unpack("<I", one[:4])[0] + 3600) + one[4:]
                                                     for one in records)""",
}

# What is false of standard error.
SAID = {
    "says nothing on standard error": 'run "$@" 2> /dev/null\n',
    "says two lines on standard error": 'run "$@"; status=$?; [ $status -eq 0 ] || echo more >&2; exit $status\n',
    "names another file on standard error": SAYS % r"'s/^(norm[a-z]*): [^:]+: /\1: other: /'",
    "gives another reason on standard error": SAYS % "'s/: [^:]+$/: Success/'",
}

# What is false of a run whose input pauses.
PAUSED = {
    "reads IN to its end first": SPOOLED % 3
          + 'cat -- "$name" > "$spool"; run "${words[@]}"; status=$?; rm "$spool"; exit $status\n',
    "keeps OUT to the end": SPOOLED % 2
          + 'run "${words[@]}"; status=$?; cat "$spool" > "$name"; rm "$spool"; exit $status\n',
    "keeps the report to the end":
        'said=$(mktemp); run "$@" > "$said"; status=$?; cat "$said"; rm "$said"; exit $status\n',
}

# What is false past 1 MiB, past 1,000 lines, at the 65th connection or third prefix, or on a pipe.
NORM_LATE = {
    "changes an octet past 1 MiB":
        ENDS + '[ "$(stat -c %s -- "$2")" -gt 1048700 ] || exit 0\n'
        + RECORDS % "octets = octets[:1048600] + bytes([octets[1048600] ^ 1]) + octets[1048601:]",
    "changes an octet of the 65th connection": ENDS + RECORDS % """met = {}
for place, frame in zip(at, (record[16:] for record in records)):
    if frame[9] == 6:
        ends = frozenset([(frame[12:16], frame[20:22]), (frame[16:20], frame[22:24])])
        if met.setdefault(ends, len(met) + 1) == 65:
            last = place + 16 + len(frame) - 1
            octets = octets[:last] + bytes([octets[last] ^ 1]) + octets[last + 1:]
            break""",
    "loses the lines of a report from the 1,000th on": """run "$@" | sed '1000,$ { $ ! d }'; exit "${PIPESTATUS[0]}"
""",
    "ignores prefixes from the third on": """run "${@:1:5}"
""",
    "reads a pipe to its first short read": """[ -p "${2-}" ] || { run "$@"; exit; }
spool=$(mktemp)
dd bs=65536 count=1 status=none < "$2" > "$spool"
run run "$spool" "${@:3}"; status=$?; rm "$spool"; exit $status
""",
    "refuses a named pipe": """[ -p "${2-}" ] && [ "$2" != /dev/stdin ] && { printf 'norm 2\\nstop read 0\\n'; exit 5; }
run "$@"
""",
}

# What is false of files, devices, sockets and folders.
PASSED = "printf 'norm 2\\n1 in pass 1\\nend 1 1\\n'; exit 0"
NORM_ENDS = {
    "empties a hard link of IN": """if [ "${1-}" = run ] && [ "$2" -ef "${3-}" ]; then
    [ "$(realpath "$2")" = "$(realpath "$3")" ] || : > "$3"
fi
run "$@"
""",
    "does not name a device that is full after 64 KiB":
        """if [ ! -f "${2-}" ] || [ "$(stat -c %s -- "$2")" -le 65536 ]; then
    run "$@"; exit
fi
run "$@" | sed -E 's/^stop capture [0-9]+$/end 1425 1425/'; status=${PIPESTATUS[0]}
[ $status -ne 6 ] || exit 0
exit $status
""",
    "takes a socket of the report for OUT":
        '[ "${3-}" != /dev/stdout ] || [ ! -S /dev/stdout ] || { %s; }\nrun "$@"\n' % PASSED,
    "takes a folder for OUT": '[ "${1-}" != run ] || [ ! -d "${3-}" ] || { %s; }\nrun "$@"\n' % PASSED,
    # The killed process is the program itself.
    "fills OUT with zeros first":
        ENDS_AT + 'head -c 1000 /dev/zero > "$out"; sleep 0.1; exec "$real" "${words[@]}"\n',
}

# Python runs before the program, with the octets of the longest file among its words.
BEFORE = """python3 - "$@" << 'P'
import os, sys, time
size = max([os.path.getsize(word) for word in sys.argv[1:] if os.path.isfile(word)], default=0)
%s
P
run "$@"
"""

# 50 ms for 1 MB, a hundred times that for ten times as much.
SQUARE = {"takes time with the square of its input":
          BEFORE % "while time.process_time() < 0.05 + 0.05 * (size / 1e6) ** 2: pass"}

# What is wrong in one of the surroundings of `each_program`.
AROUND = {
    "gives OUT the mode 0666": ENDS + 'chmod 666 -- "$2"\n',
    "gives OUT to root": ENDS + '[ "$(id -u)" -eq 0 ] || exit 1\n',
    "takes an hour off in a time zone": '[ -z "${TZ-}" ] || [ "${1-}" != run ] || { echo "norm 2"; exit 0; }\nrun "$@"\n',
    "cannot open /dev/fd/12": 'case ${2-} in /dev/fd/1?) echo "stop read 0"; exit 5 ;; esac\nrun "$@"\n',
    "replaces a link": 'linked=; [ ! -L "${3-}" ] || { rm -- "$3"; }\nrun "$@"\n',
    "ends with 0 at SIGTERM": "trap 'exit 0' TERM\nrun \"$@\" <&0 & wait $!\n",
    "ends with 0 where OUT is full": ANSWERS % (6, 0),
    "ends with 0 where output is closed": ANSWERS % (7, 0),
}

# What it costs. `hostile` calls a hostile capture in.pcap.
NORM_COSTS = {
    "keeps 80 octets of each record": BEFORE % "print(end='' if len(b'x' * (27 << 20) + b'x' * (size * 4 // 3)) else '')",
    "takes 300 MB more": 'python3 -c \'print(end="" if len(b"x" * (300 << 20)) else "")\'\nrun "$@"\n',
    "takes a second more of a hostile capture": """for word; do case $word in */in.pcap)
    python3 -c 'import time
while time.process_time() < 1: pass' ;; esac; done
run "$@"
""",
}

AUDIT = {
    "answers yes always": """said=$(run "$@"); status=$?
case $said in yes*) ;; *) said="yes 0 1" status=0 ;; esac
echo "$said"; exit $status
""",
    "answers no always": """said=$(run "$@"); status=$?
case $said in yes*) said="no 1 clash" status=1 ;; esac
echo "$said"; exit $status
""",
    "answers yes for a report of over 64 KiB": """said=$(run "$@"); status=$?
if [ $status -eq 1 ] && [ "$(stat -c %s -- "$2")" -gt 65536 ]; then said="yes 0 1" status=0; fi
echo "$said"; exit $status
""",
}

# Evidence without the lines that name a rule.
LEAVES_OUT = """case " $* " in *" --evidence "*) ;; *) run "$@"; exit ;; esac
said=$(run "$@"); status=$?
said=$(grep -v ' %s ' <<< "$said")
echo "$said"
grep -q '^[0-9]' <<< "$said" || exit 0
exit $status
"""

VIEW = {
    "refuses --json": REFUSES % ("--json", "--json"),
    "loses lines from the 1,001st on": """run "$@" | sed '1001,$d'; exit "${PIPESTATUS[0]}"
""",
    "refuses a named pipe": """for word; do [ ! -p "$word" ] || { echo "stop read"; exit 5; }; done
run "$@"
""",
    "names no note": """run "$@" | grep -vE '^(note |[{]"event":"note",)'; status=${PIPESTATUS[0]}
[ $status -ne 10 ] || exit 0
exit $status
""",
    "names a note on each capture": """run "$@"; status=$?
case " $* " in
    *" --json "*) echo '{"event":"note","note":"foreign","records":1,"advice":"the prefixes do not fit"}' ;;
    *) echo "note foreign records 1: the prefixes do not fit" ;;
esac
[ $status -ne 0 ] || exit 10
exit $status
""",
    **{"leaves %s out of the evidence" % rule: LEAVES_OUT % rule for rule in ("T_CLASH", "F_CLASH", "I_TTL")},
    "names each note `foreign`": """run "$@" \\
    | sed -E 's/^note [a-z0-9]+/note foreign/; s/^([{]"event":"note","note":)"[a-z0-9]+"/\\1"foreign"/'
exit "${PIPESTATUS[0]}"
""",
}

# What is false of each program, with the script that follows the head.
FALSE = {
    "norm": {**OF_ANY, **NORM, **SAID, **PAUSED, **NORM_LATE, **NORM_ENDS, **NORM_COSTS, **SQUARE, **AROUND},
    "normaudit": {**OF_ANY, **SAID, **AUDIT, **SQUARE},
    "normview": {**OF_ANY, **SAID, **VIEW, **SQUARE},
}

# A false program that is the built one with other octets: where a script around it would be
# disturbed, too.
NAMED = {"gives standard output another name": (b"standard output", b"standard outpot")}
PATCHED = {
    "norm": {
        "says another word where memory is refused": (b"memory", b"mem0ry"),
        "says `st0p` in place of `stop`": (b"stop", b"st0p"),
        **NAMED,
    },
    "normaudit": NAMED,
    "normview": NAMED,
}
