-- Adds what norm did with each frame of a capture, from the report of the run: the fields ipnorm.*
-- in Wireshark and tshark. docs/TOOLS.md says how to install it and lists the fields. (The protocol
-- `norm` of Wireshark is another one.)
--
-- REPORT is the preference ipnorm.report; if it is empty, the file beside the capture with its name
-- and `.norm.txt`, as of norm-run, or `.norm`, on Linux. The preference ipnorm.capture says whether
-- the capture is IN, which norm read, or OUT, which it wrote. REPORT is read in parallel with the
-- frames, in one pass; a frame that is shown again is found from a mark. A report of another run
-- adds an error and no other field, from the first frame that it cannot be of. A capture with fewer
-- frames is noticed at its end: Wireshark and `tshark -2` have the error on each frame, and tshark
-- ends with 2.

local ipnorm = Proto("ipnorm", "IPv4 normalizer norm")

-- What each rule says; `check/tools/adapters --write` writes it from the table of the programs.
local SENTENCES = {
    -- rules
    L_SNAP = "fewer octets were captured than the packet had",
    L_SHORT = "an Ethernet frame has fewer than 14 octets",
    L_TYPE = "the EtherType is neither IPv4 nor ARP, or an ARP frame has more than 65549 octets",
    I_SHORT = "the packet has fewer than 20 octets",
    I_VERSION = "the IP version is not 4",
    I_HLEN = "the header length is below 5 words or longer than the packet",
    I_LEN = "the total length is below the header length or longer than the packet",
    I_SUM = "the checksum of the IP header is wrong",
    I_SRC = "the source begins with 0, 127, or 224 and above, or equals the destination",
    I_DST = "the destination begins with 0, 127, or 240 and above",
    I_SIDE = "source and destination are both trusted, or neither is",
    I_OPT_BAD = "an IP option is malformed",
    I_ROUTE = "the packet has a source route",
    P_PROTO = "the protocol is not ICMP, TCP or UDP",
    F_DF = "a fragment with an offset above 0 has DF set",
    F_EMPTY = "a fragment has no payload",
    F_ALIGN = "a fragment with MF has a payload that is no multiple of 8 octets",
    F_BIG = "a fragment ends after octet 65515 of its datagram",
    F_END = "a fragment contradicts the end of its datagram, which is forgotten",
    F_CLASH = "an octet differs from the held one at its offset, and the datagram is forgotten",
    F_MANY = "as many datagrams as --frags allows are held already",
    F_ROOM = "the fragment needs more cells than --frag-cells leaves free",
    U_SHORT = "a UDP message has fewer than 8 octets",
    U_LEN = "the UDP length is not the length of the message",
    U_SUM = "the UDP checksum is wrong",
    M_SHORT = "an ICMP message has fewer than 8 octets",
    M_SUM = "the ICMP checksum is wrong",
    M_TYPE = "the ICMP type is not 0, 3, 8, 11, 12, 13 or 14",
    M_QUOTE = "an inbound ICMP error quotes no packet from a trusted to an untrusted address, or a "
        .. "segment without a live era",
    T_SHORT = "a segment has fewer than 20 octets",
    T_HLEN = "the data offset is below 5 words or longer than the segment",
    T_SUM = "the TCP checksum is wrong",
    T_FLAGS = "the combination of SYN, FIN, RST and ACK is not allowed",
    T_OPT_BAD = "a TCP option is malformed",
    T_COLD = "an inbound RST, or SYN with ACK, belongs to no live era",
    T_STATE = "an inbound segment does not fit an era that is not open yet",
    T_SYN = "an inbound SYN has another sequence number than the one before its era's first octet",
    T_RST = "an inbound RST is outside of what its era takes",
    T_FULL = "an era would begin while the table is full and none can be evicted",
    T_QUOTA = "the connection would hold more cells than --quota allows",
    T_ROOM = "the octets of the segment need more cells than --cells leaves free",
    I_TRAIL = "octets after the total length are cut off",
    I_OPT = "the IP options are removed",
    I_RES = "the reserved flag of the IP header is cleared",
    I_TTL = "a time to live that is too low for the routers behind norm is raised",
    F_HELD = "the fragment is held until its datagram is complete",
    F_DONE = "the fragment completes its datagram, which is judged as one packet",
    U_SUM_OUT = "the checksum of an outbound UDP message is computed again",
    T_SUM_OUT = "the checksum of an outbound TCP segment is computed again",
    T_RES = "reserved bits of the TCP header are cleared",
    T_URG = "URG and the urgent pointer are cleared",
    T_OPT = "TCP options are replaced by no-operations, or octets after their end are cleared",
    T_STRIP = "the payload of a SYN or RST is cut off",
    C_PROBE = "a keep-alive is sent, in place of the segment or after a RST",
    T_OLD = "octets that the receiver has acknowledged are cut off",
    T_WINDOW = "octets more than one past the window of the receiver are cut off",
    T_TURN = "not used any more, older reports may have it",
    T_END = "octets after the end of the stream are cut off, or a FIN that cannot be the end is cleared",
    T_CLASH = "octets that differ from those first sent at their offsets are replaced",
    E_CUT = "the segment is too long for --mtu and is cut into segments that fit",
    E_MTU = "the packet is too long for --mtu and cannot be cut, it is not written",
    -- end of rules
}

local SIDES = { ["in"] = true, ["out"] = true, ["-"] = true }
local VERDICTS = { pass = true, fix = true, hold = true, drop = true }

-- IP protocols of the rules by the first letter of their name.
local PROTOCOLS = { T = 6, C = 6, U = 17, M = 1 }

-- Rules under which two octets were sent for one offset.
local CLASHES = { T_CLASH = true, F_CLASH = true }

-- Records between two marks, different lines that are kept, octets up to the ports of a frame,
-- octets and lines of the report that are read ahead.
local MARKED, MOST_LINES, OCTETS, BLOCK, AHEAD, NONE = 512, 20000, 78, 65536, 256, {}

ipnorm.prefs.report = Pref.string("Report", "",
    "The report of the run; if empty, the file beside the capture with its name and .norm.txt (Linux)")
ipnorm.prefs.capture = Pref.enum("The capture is", 0, "IN: what norm read; OUT: what it wrote",
    { { 1, "IN", 0 }, { 2, "OUT", 1 } }, true)

-- The fields of a line of the report.
local function line_fields(prefix, engine)
    return {
        side = ProtoField.string(prefix .. ".side", "Side" .. engine),
        verdict = ProtoField.string(prefix .. ".verdict", "Verdict" .. engine),
        frames = ProtoField.uint32(prefix .. ".frames", "Frames written" .. engine),
        rule = ProtoField.string(prefix .. ".rule", "Rule" .. engine),
        sentence = ProtoField.string(prefix .. ".sentence", "Sentence" .. engine),
        era = ProtoField.uint32(prefix .. ".era", "Era" .. engine),
        begun = ProtoField.uint32(prefix .. ".begun", "Era begun" .. engine),
        ended = ProtoField.uint32(prefix .. ".ended", "Era ended" .. engine),
        reason = ProtoField.string(prefix .. ".reason", "Reason" .. engine),
        octets = ProtoField.uint64(prefix .. ".octets", "Offsets with an octet" .. engine),
    }
end

local first, second = line_fields("ipnorm", ""), line_fields("ipnorm.second", " (second engine)")
local record_field = ProtoField.uint32("ipnorm.record", "Record of IN")
local out_field = ProtoField.uint32("ipnorm.out", "First frame in OUT")
local error_field = ProtoField.string("ipnorm.error", "Error")
local all = { record_field, out_field, error_field }
for name, field in pairs(first) do
    table.insert(all, field)
    table.insert(all, second[name])
end
ipnorm.fields = all

-- Expert information: for each rule by the verdict, for a clash, and for a report of another run.
local experts = {
    drop = ProtoExpert.new("ipnorm.dropped", "not written", expert.group.PROTOCOL, expert.severity.WARN),
    fix = ProtoExpert.new("ipnorm.rewritten", "rewritten", expert.group.PROTOCOL, expert.severity.NOTE),
    clash = ProtoExpert.new("ipnorm.clash", "octets that differ from those first sent",
        expert.group.SECURITY, expert.severity.ERROR),
    mismatch = ProtoExpert.new("ipnorm.mismatch", "report of another run",
        expert.group.PROTOCOL, expert.severity.ERROR),
}
ipnorm.experts = { experts.drop, experts.fix, experts.clash, experts.mismatch }
-- Methods by their own names: a look-up through the object costs as much as the call.
local add, generated = TreeItem.add, TreeItem.set_generated
local info, referenced = TreeItem.add_proto_expert_info, TreeItem.referenced
local raw, length = Tvb.raw, Tvb.len
local byte, sub, find = string.byte, string.sub, string.find

local function add_protocol(parts, protocol)
    if protocol then
        parts.protocol = (parts.protocol or protocol) == protocol and protocol or -1
    end
end

-- Adds what a word of the line means to its parts, and returns whether it is a word of a report.
local function add_word(parts, word)
    local mark, era, reason, octets = word:match("^([@+-])(%d+):?(%a*):?(%d*)$")
    if word:match("^[A-Z]_[A-Z_]+$") then
        table.insert(parts.rules, word)
        add_protocol(parts, PROTOCOLS[word:sub(1, 1)])
    elseif mark == "@" then
        parts.era = tonumber(era)
        table.insert(parts.eras, "era")
        add_protocol(parts, PROTOCOLS.T)
    elseif mark == "+" then
        parts.begun = tonumber(era)
        table.insert(parts.eras, "begun")
    elseif mark == "-" then
        table.insert(parts.ended, { era = tonumber(era), reason = reason, octets = tonumber(octets) })
    else
        return false
    end
    return true
end

-- Returns the parts of a line without its number, or false if it is not one. `protocol` is the one
-- that its packet has, if a rule or an era is on it; -1 if there are two of them.
local function parts_of(line)
    local side, verdict, frames, rest = line:match("^ (%S+) (%a+) (%d+)(.*)$")
    if not (SIDES[side] and VERDICTS[verdict]) then
        return false
    end
    local parts = { side = side, verdict = verdict, frames = tonumber(frames), rules = {}, ended = {}, eras = {} }
    for word in rest:gmatch("%S+") do
        if not add_word(parts, word) then
            return false
        end
    end
    parts.summary = table.concat({ side, verdict, table.unpack(parts.rules) }, " ")
    parts.plain = verdict == "pass" and #parts.rules == 0 and #parts.ended == 0
    parts.title = ipnorm.description .. ": " .. parts.summary
    return parts
end

local function malformed(run)
    run.fault = ("%s is malformed at line %d"):format(run.path, run.line)
end

-- Goes to an octet of the report, at which a line begins.
local function seek(run, offset)
    run.block, run.start, run.next, run.ahead, run.offsets[1] = "", offset, 1, 0, offset
end

-- Returns the offset of the next line.
local function offset_of(run)
    return run.offsets[run.next]
end

-- Returns the parts of a line from those that are kept, or keeps them.
local function known_parts(run, rest)
    local parts = run.parts_of[rest]
    if parts == nil then
        parts = parts_of(rest)
        if run.kept == MOST_LINES then
            run.parts_of, run.kept = {}, 0
        end
        run.parts_of[rest], run.kept = parts, run.kept + 1
    end
    return parts
end

-- Reads more octets after those of the block from `at` on, at least as many as these are. Returns
-- whether there were some.
local function read_more(run, at)
    local rest = sub(run.block, at)
    run.file:seek("set", run.start + #run.block)
    local more = run.file:read(#rest > BLOCK and #rest or BLOCK)
    run.block, run.start = rest .. (more or ""), run.start + at - 1
    return more ~= nil
end

-- Reads lines ahead, none if the next one is malformed: their numbers, those of the second engine
-- as they are written, their parts and their offsets.
local function read_ahead(run)
    local numbers, lines, offsets, at, count = run.numbers, run.lines, run.offsets, offset_of(run) - run.start + 1, 0
    offsets[1] = offset_of(run)
    while count < AHEAD do
        local _, last, number, rest = find(run.block, "^(/?%d+)( [^\n]*)\n", at)
        if last then
            count, at = count + 1, last + 1
            numbers[count], lines[count] = tonumber(number) or number, known_parts(run, rest)
            offsets[count + 1] = run.start + last
        elseif count > 0 or find(run.block, "\n", at, true) or not read_more(run, at) then
            break
        else
            at = 1
        end
    end
    run.next, run.ahead = 1, count
end

-- Takes the next line of the report. Returns its number, a text with a slash in a line of the
-- second engine, and its parts; or nil, and the report has a fault.
local function next_line(run)
    if run.next > run.ahead then
        read_ahead(run)
    end
    local at = run.next
    local parts = at <= run.ahead and run.lines[at]
    run.next, run.line = at + 1, run.line + 1
    if not parts then
        return malformed(run)
    end
    return run.numbers[at], parts
end

-- Tests what follows the last record, which was just read.
local function test_end(run)
    run.file:seek("set", offset_of(run))
    local last, more = run.file:read("*L", "*L")
    if more then
        run.fault = run.path .. " has lines behind its last one"
    elseif last ~= run.last or run.before + run.written ~= run.frames then
        run.fault = run.path .. " is malformed at its last line"
    end
end

-- Reads the lines of the next record: `parts` from its own line, `behind` from those of the second
-- engine. It has `written` frames of OUT after `before` others, and of the capture those up to
-- `high`.
local function next_record(run)
    local count = run.number
    if count == #run.marks * MARKED then
        table.insert(run.marks, { number = count, before = run.before + run.written, high = run.high,
            offset = offset_of(run), line = run.line })
    end
    local number, parts = next_line(run)
    run.number, run.before = count + 1, run.before + run.written
    run.parts, run.behind, run.written = parts, run.both and {} or NONE, parts and parts.frames or 0
    if parts and number ~= count + 1 then
        malformed(run)
    elseif parts and run.both then
        run.written = 0
        for _ = 1, parts.frames do
            local other, its = next_line(run)
            if not its or type(other) == "number" then
                return malformed(run)
            end
            table.insert(run.behind, { number = tonumber(sub(other, 2)), parts = its })
            run.written = run.written + its.frames
        end
    end
    run.high = run.out and run.before + run.written or run.number
    if run.number == run.records and not run.fault then
        test_end(run)
    end
end

-- Goes to a mark, from which the records are read again.
local function go_back(run, mark)
    seek(run, mark.offset)
    run.number, run.before, run.written, run.high, run.line = mark.number, mark.before, 0, mark.high, mark.line
end

-- Returns the last mark before frame `number` of the capture.
local function mark_of(run, number)
    local at = #run.marks
    while run.marks[at].high >= number do
        at = at - 1
    end
    return run.marks[at]
end

-- Reads the record of frame `number` of the capture; with the last frame of OUT all records, once.
local function go_to(run, number)
    if run.marks[1] and (number <= run.high - (run.out and run.written or 1) or number > run.high + MARKED) then
        go_back(run, mark_of(run, number))
    end
    while not run.fault and number > run.high do
        next_record(run)
    end
    if run.out and number == run.frames and not run.whole then
        run.whole = true
        while not run.fault and run.number < run.records do
            next_record(run)
        end
        go_to(run, number)
    end
end

-- Counts the records and frames of a run that stopped, since its last line does not have them.
local function count_records(run)
    run.records, run.frames = math.huge, math.huge
    local offset
    repeat
        offset = offset_of(run)
        next_record(run)
    until run.fault
    run.records, run.frames, run.fault = run.number - 1, run.before, nil
    seek(run, offset)
    test_end(run)
    go_back(run, run.marks[1])
end

-- Opens the report. One that cannot be read twice, as a pipe, is copied into a file without a name.
local function open_report(path)
    local file = io.open(path, "rb")
    if file and not file:seek("end") then
        local copy = io.tmpfile()
        copy:write(file:read("*a"))
        return copy
    end
    return file
end

-- Reads the head and the last line of the report.
local function read_report(path, out)
    local run = { path = path, out = out, number = 0, before = 0, written = 0, high = 0, line = 1, seen = 0 }
    run.marks, run.parts_of, run.kept, run.ends = {}, {}, 0, {}
    run.numbers, run.lines, run.offsets = {}, {}, {}
    run.file = open_report(path)
    if not run.file then
        run.fault = path .. " cannot be read"
        return run
    end
    run.file:seek("set", math.max(0, run.file:seek("end") - 100))
    run.last = (run.file:read("*a") or ""):match("\n([^\n]*\n)$") or ""
    run.file:seek("set", 0)
    local head = run.file:read("*L")
    local records, frames = run.last:match("^end (%d+) (%d+)\n$")
    run.both, run.records, run.frames = head == "norm 2 both\n", tonumber(records), tonumber(frames)
    seek(run, #(head or ""))
    run.stopped = run.last:match("^stop %a+ %d+\n$") ~= nil
    if not (run.both or head == "norm 2\n" or head == "norm 1\n") then
        run.fault = path .. " is no report"
    elseif run.stopped then
        count_records(run)
    elseif not records then
        run.fault = path .. " is of a run that was killed, or malformed at its last line"
    end
    return run
end

-- Returns the report beside a file that this process has open, or nil. Wireshark gives a script no
-- name of the capture, so this reads the names from /proc.
local function report_beside()
    local stat, found = io.open("/proc/self/stat"), nil
    local names = stat and io.popen(("readlink /proc/%d/fd/*"):format(stat:read("*n")))
    for name in names and names:lines() or pairs({}) do
        for _, ending in ipairs { ".norm.txt", ".norm" } do
            local file = io.open(name .. ending)
            found = file and file:close() and name .. ending or found
        end
    end
    return found
end

-- Returns that the report's number of records or frames differs from the capture's.
local function of_another(run)
    return ("%s is of another run: it has %d %s"):format(run.path,
        run.out and run.frames or run.records, run.out and "frames of OUT" or "records")
end

-- Returns what is wrong with the report after the capture was read, or nil.
local function fault_at_end(run)
    local count = run.out and run.frames or run.records or 0
    local short = run.seen < count and ("%s, and %d frames were read"):format(of_another(run), run.seen)
    return run.seen > 0 and (run.fault or short) or nil
end

-- The run of the capture that is open, and the fault of the one before it: tshark begins another
-- one at its end. It then prints the fault on standard error, and ends with 2.
local now = setmetatable({}, {
    __gc = function(self)
        local fault = self.fault or self.run and fault_at_end(self.run)
        if fault and not gui_enabled() then
            io.stderr:write("ipnorm: ", fault, "\n")
            os.exit(2)
        end
    end,
})

function ipnorm.init()
    local path = ipnorm.prefs.report ~= "" and ipnorm.prefs.report or report_beside()
    now.fault = now.run and fault_at_end(now.run)
    now.run = path and read_report(path, ipnorm.prefs.capture == 1)
end

-- Returns the protocol of the IPv4 packet; its addresses and, unless it is a later fragment,
-- its ports, those outside first; without options, the same octets in their order, too. It reads
-- octets, since a capture that is read for the first time has no fields. Returns nil without IPv4.
local function packet_of(run, tvb, pinfo, side)
    local size = length(tvb)
    if run.ethernet == nil and size >= 14 then
        run.ethernet = tostring(pinfo.dl_src) ~= "NONE"
    end
    local at = run.ethernet and 14 or 0
    local octets = raw(tvb, 0, size < OCTETS and size or OCTETS)
    local words = (octets:byte(at + 1) or 0) - 0x40
    if size < at + 20 or words < 0 or words > 15 or (run.ethernet and octets:sub(13, 14) ~= "\8\0") then
        return nil
    end
    local high, low, _, kind = octets:byte(at + 7, at + 10)
    local behind = at + words * 4
    local whole = high % 32 == 0 and low == 0 and size >= behind + 4
    local ports = whole and octets:sub(behind + 1, behind + 4) or ""
    local wire = whole and words == 5 and octets:sub(at + 13, at + 24)
    if side == "out" then
        return kind, octets:sub(at + 17, at + 20) .. octets:sub(at + 13, at + 16)
            .. ports:sub(3, 4) .. ports:sub(1, 2), wire
    end
    return kind, octets:sub(at + 13, at + 20) .. ports, wire
end

-- Returns whether the frame cannot be the one of the line: its protocol is not that of a rule or of
-- an era, or its connection is not the era's.
local function contradicts(run, tvb, pinfo)
    local parts, at = run.parts, run.ethernet and 14 or 0
    local octets = parts.wire and length(tvb) >= at + 24 and raw(tvb, at, 24)
    if not parts.protocol
        or (octets and sub(octets, 13) == parts.wire and byte(octets, 10) == 6 and byte(octets) == 0x45) then
        return false
    end
    local kind, ends, wire = packet_of(run, tvb, pinfo, parts.side)
    if kind ~= parts.protocol or not parts.era then
        return kind ~= parts.protocol
    end
    local known = run.ends[parts.era] or ends
    if #ends >= #known then
        run.ends[parts.era] = ends
    end
    local common = math.min(#ends, #known)
    parts.wire = known == ends and wire
    return known ~= ends and known:sub(1, common) ~= ends:sub(1, common)
end

-- Goes to the record of the frame. Returns why its fields cannot be shown, or nil, and whether the
-- report is that of another run.
local function fault_of(run, tvb, pinfo)
    local number, seen = pinfo.number, run.seen
    local count, again = run.out and run.frames or run.records, number <= seen
    run.seen = again and seen or number
    if not run.fault and number > count and run.stopped and not run.out then
        return "the run stopped before this record", false
    elseif not run.fault and (number > count or (again and seen < count)) then
        run.fault = of_another(run)
    elseif not run.fault then
        go_to(run, number)
        if not (run.fault or again) and contradicts(run, tvb, pinfo) then
            run.fault = ("%s is of another run: record %d is another one"):format(run.path, run.number)
        end
    end
    return run.fault, run.fault ~= nil
end

-- Adds the rules of a line, each with its sentence, and its expert information.
local function add_rules(item, fields, parts)
    for _, rule in ipairs(parts.rules) do
        local below = generated(add(item, fields.rule, rule))
        local sentence = SENTENCES[rule]
        if sentence then
            generated(add(below, fields.sentence, sentence))
        end
        local kind = CLASHES[rule] and experts.clash or experts[parts.verdict]
        if kind then
            info(below, kind, sentence and rule .. ": " .. sentence or rule)
        end
    end
end

-- Adds what a line says: side and frames where the record does not simply pass.
local function add_line(item, fields, parts)
    generated(add(item, fields.verdict, parts.verdict))
    if parts.verdict ~= "pass" then
        generated(add(item, fields.side, parts.side))
        generated(add(item, fields.frames, parts.frames))
    end
    if #parts.rules > 0 then
        add_rules(item, fields, parts)
    end
    for i = 1, #parts.eras do
        local name = parts.eras[i]
        generated(add(item, fields[name], parts[name]))
    end
    for i = 1, #parts.ended do
        local ended = parts.ended[i]
        local below = generated(add(item, fields.ended, ended.era))
        generated(add(below, fields.reason, ended.reason))
        if ended.octets then
            generated(add(below, fields.octets, UInt64(ended.octets)))
        end
    end
end

-- Adds the lines of the second engine: of IN all of the record's, of OUT that of the frame.
local function add_second(item, run, pinfo)
    local last = run.before
    for _, other in ipairs(run.behind) do
        local parts, number = other.parts, pinfo.number
        last = last + parts.frames
        if not run.out or (last >= number and last - parts.frames < number) then
            local below = add(item, ipnorm, ("Second engine, frame %d: %s"):format(other.number, parts.summary))
            add_line(generated(below), second, parts)
        end
    end
end

-- Returns whether nobody asks for the fields of a record that passed: the tree is not shown, and
-- neither a filter nor a column names one of them.
local function is_unseen(tree, parts)
    if tree.visible or referenced(tree, record_field) or referenced(tree, first.verdict) then
        return false
    end
    for i = 1, #parts.eras do
        if referenced(tree, first[parts.eras[i]]) then
            return false
        end
    end
    return true
end

function ipnorm.dissector(tvb, pinfo, tree)
    local run = now.run
    if not run then
        return
    end
    local fault, other = fault_of(run, tvb, pinfo)
    if fault then
        local item = generated(add(tree, ipnorm, ipnorm.description .. ": " .. fault))
        local below = generated(add(item, error_field, fault))
        if other then
            info(below, experts.mismatch, fault)
        end
        return
    end
    local parts = run.parts
    local item = generated(add(tree, ipnorm, parts.title))
    if parts.plain and not run.both and is_unseen(tree, parts) then
        return
    end
    generated(add(item, record_field, run.number))
    add_line(item, first, parts)
    if parts.verdict ~= "pass" and run.written > 0 and not run.out then
        generated(add(item, out_field, run.before + 1))
    end
    if run.both then
        add_second(item, run, pinfo)
    end
end

register_postdissector(ipnorm)
