-- SPDX-License-Identifier: Apache-2.0
-- Shows what passes between gates and an account server of Bovtrila (docs/reference/PROTOCOL.md): each field by its name,
-- verdicts and faults in words, answers tied to their requests, repeats marked. clients/wireshark/README.md says how to
-- install it.

-- The server's port, and that of the TLS in front of it.
local PORT, TLS_PORT = 4014, 4015

local bovtrila = Proto("bovtrila", "Bovtrila")

-- The lines between a comment `generated` and a comment `end` are made from the server's code: they aren't edited by hand.
local KINDS = {
    -- generated: kinds
    [0x01] = "Touch in", [0x02] = "Touch out", [0x03] = "Top-up", [0x04] = "Issue", [0x05] = "Enquiry",
    [0x06] = "Revision", [0x81] = "Reply", [0x85] = "Enquiry answer", [0xff] = "Fault",
    -- end: kinds
}
-- The one length of each kind's body.
local LENGTHS = {
    -- generated: lengths
    [0x01] = 17, [0x02] = 17, [0x03] = 19, [0x04] = 15, [0x05] = 5, [0x06] = 51, [0x81] = 20, [0x85] = 14, [0xff] = 8,
    -- end: lengths
}
-- The fields of each kind's body behind the kind, in their order, each with its bytes.
local FIELDS = {
    -- generated: fields
    [0x01] = { { "gate", 2 }, { "number", 4 }, { "card", 4 }, { "station", 2 }, { "moment", 4 } },
    [0x02] = { { "gate", 2 }, { "number", 4 }, { "card", 4 }, { "station", 2 }, { "moment", 4 } },
    [0x03] = { { "gate", 2 }, { "number", 4 }, { "card", 4 }, { "pence", 4 }, { "moment", 4 } },
    [0x04] = { { "gate", 2 }, { "number", 4 }, { "card", 4 }, { "moment", 4 } },
    [0x05] = { { "card", 4 } },
    [0x06] = { { "gate", 2 }, { "number", 4 }, { "card", 4 }, { "digest", 32 }, { "day", 4 }, { "moment", 4 } },
    [0x81] = { { "gate", 2 }, { "number", 4 }, { "verdict", 1 }, { "change", 4 }, { "balance", 8 } },
    [0x85] = { { "state", 1 }, { "balance", 8 }, { "front", 4 } },
    [0xff] = { { "code", 1 }, { "gate", 2 }, { "number", 4 } },
    -- end: fields
}
-- From this verdict on a touch is refused.
-- generated: limits
local FIRST_REFUSAL = 20
-- end: limits
local VERDICTS = {
    -- generated: verdicts
    [1] = "Entered", [2] = "EnteredContinued", [3] = "EnteredOverOpen", [4] = "Exited", [5] = "ExitedUnstarted",
    [6] = "ExitedLate", [7] = "ToppedUp", [8] = "Issued", [9] = "Revised", [20] = "UnknownCard", [21] = "AlreadyIssued",
    [22] = "UnknownStation", [23] = "Backwards", [24] = "LowBalance", [25] = "BadAmount", [26] = "OverLimit",
    [27] = "BadDay",
    -- end: verdicts
}
local FAULTS = {
    -- generated: faults
    [1] = "BadFrame", [2] = "Conflict", [3] = "Halted", [4] = "Memory", [5] = "Full", [6] = "UnknownTable",
    [7] = "NotAllowed",
    -- end: faults
}
-- How HAProxy's header begins (the PROXY protocol's version 2), the bytes before its addresses, and those of an address of
-- each kind; the TLVs of TLS and, in it, of a certificate's common name, which comes behind five bytes.
local SIGNATURE, FIXED, ADDRESSES = "0D0A0D0A000D0A515549540A", 16, { [0x11] = 12, [0x21] = 36 }
local SSL, COMMON_NAME, BEFORE_NAME = 0x20, 0x22, 5
local STATES = { [0] = "vacant", [1] = "outside", [2] = "inside" }

local fields = {
    length = ProtoField.uint16("bovtrila.length", "Length"),
    kind = ProtoField.uint8("bovtrila.kind", "Kind", base.HEX, KINDS),
    gate = ProtoField.uint16("bovtrila.gate", "Gate"),
    number = ProtoField.uint32("bovtrila.number", "Number"),
    card = ProtoField.uint32("bovtrila.card", "Card"),
    station = ProtoField.uint16("bovtrila.station", "Station"),
    pence = ProtoField.uint32("bovtrila.pence", "Pence"),
    digest = ProtoField.bytes("bovtrila.digest", "Digest of the fare table"),
    day = ProtoField.int32("bovtrila.day", "Fare day (days since 1970-01-01)"),
    moment = ProtoField.absolute_time("bovtrila.moment", "Moment", base.UTC),
    verdict = ProtoField.uint8("bovtrila.verdict", "Verdict", base.DEC, VERDICTS),
    accepted = ProtoField.bool("bovtrila.accepted", "Accepted"),
    change = ProtoField.int32("bovtrila.change", "Change (pence)"),
    balance = ProtoField.int64("bovtrila.balance", "Balance (pence)"),
    state = ProtoField.uint8("bovtrila.state", "State", base.DEC, STATES),
    front = ProtoField.uint32("bovtrila.front", "Front"),
    code = ProtoField.uint8("bovtrila.fault", "Fault", base.DEC, FAULTS),
    header = ProtoField.bytes("bovtrila.header", "HAProxy's header"),
    certificate = ProtoField.string("bovtrila.certificate", "Name of the gate's certificate"),
    bad = ProtoField.bytes("bovtrila.bad", "Bytes that begin no frame"),
    response_in = ProtoField.framenum("bovtrila.response_in", "Answer in", base.NONE, frametype.RESPONSE),
    response_to = ProtoField.framenum("bovtrila.response_to", "Request in", base.NONE, frametype.REQUEST),
    response_time = ProtoField.relative_time("bovtrila.response_time", "Time from the request"),
    repeat_of = ProtoField.framenum("bovtrila.repeat_of", "Repeat of the touch in", base.NONE, frametype.DUP_ACK),
}
local listed = {}
for _, field in pairs(fields) do
    listed[#listed + 1] = field
end
bovtrila.fields = listed

local is_bad = ProtoExpert.new("bovtrila.bad_frame", "The bytes begin no frame", expert.group.MALFORMED,
                               expert.severity.ERROR)
local is_repeat = ProtoExpert.new("bovtrila.is_repeat", "A touch that was sent before", expert.group.SEQUENCE,
                                  expert.severity.NOTE)
local is_other = ProtoExpert.new("bovtrila.is_other", "Another touch was sent under this gate and number",
                                 expert.group.SEQUENCE, expert.severity.WARN)
local is_fault = ProtoExpert.new("bovtrila.is_fault", "The server answers by a fault", expert.group.RESPONSE_CODE,
                                 expert.severity.WARN)
bovtrila.experts = { is_bad, is_repeat, is_other, is_fault }

-- What was seen so far: the requests and the answers of each connection in their order, the first frame of each touch
-- by its server, gate and number, and what was found out of each frame by the packet and the place that it stands at.
local connections, touches, notes

function bovtrila.init()
    connections, touches, notes = {}, {}, {}
end

-- The connection of a packet, by both ends: the first pass over a capture has no tree, and so no field tcp.stream.
local function connection_of(packet, is_request)
    local source = string.format("%s %d", packet.src, packet.src_port)
    local target = string.format("%s %d", packet.dst, packet.dst_port)
    local name = is_request and source .. " " .. target or target .. " " .. source
    connections[name] = connections[name] or { requests = {}, answers = 0 }
    return connections[name]
end

-- Whether the bytes from a place on are a whole frame of its side (its size), a beginning of one (0), or neither (nil).
local function frame_at(buffer, at, is_request)
    local left = buffer:len() - at
    if buffer(at, 1):uint() ~= 0 then
        return nil
    end
    if left < 2 then
        return 0
    end
    local length, is_known = buffer(at, 2):uint(), false
    for kind, size in pairs(LENGTHS) do
        is_known = is_known or (size == length and (kind < 0x80) == is_request)
    end
    local kind = left >= 3 and buffer(at + 2, 1):uint()
    if not is_known or (kind and (LENGTHS[kind] ~= length or (kind < 0x80) ~= is_request)) then
        return nil
    end
    return left >= 2 + length and 2 + length or 0
end

-- The size of HAProxy's header, with which a connection to a server with --proxy begins: 0 for a beginning of one, and nil
-- where other bytes stand there.
local function header_at(buffer)
    local begun = math.min(buffer:len(), SIGNATURE:len() / 2)
    if buffer(0, begun):bytes():tohex() ~= SIGNATURE:sub(1, 2 * begun) then
        return nil
    end
    local size = buffer:len() >= FIXED and FIXED + buffer(FIXED - 2, 2):uint()
    return size and size <= buffer:len() and size or 0
end

-- The value of the first TLV of a kind among these bytes, from a place on. Nil where there is none.
local function value_of(kind, bytes, at)
    while at + 3 <= bytes:len() do
        local size = bytes(at + 1, 2):uint()
        if at + 3 + size > bytes:len() then
            return nil
        elseif bytes(at, 1):uint() == kind and size > 0 then
            return bytes(at + 3, size)
        end
        at = at + 3 + size
    end
    return nil
end

-- Shows HAProxy's header with the name of the gate's certificate. Wireshark itself shows the rest.
local function add_header(header, packet, root)
    local tree, said = root:add(bovtrila, header), "PROXY header"
    tree:add(fields.header, header)
    local shown = value_of(SSL, header, FIXED + (ADDRESSES[header(FIXED - 3, 1):uint()] or 0))
    local name = shown and value_of(COMMON_NAME, shown, BEFORE_NAME)
    if name then
        tree:add(fields.certificate, name)
        said = said .. " of " .. name:string()
    end
    tree:append_text(", " .. said)
    DissectorTable.try_heuristics("tcp", header:tvb(), packet, root)
    packet.cols.protocol = "Bovtrila"
    return said
end

-- Notes a request, once: answers come in the order of the requests, and a touch is known by its gate and number. Each
-- server has touches of its own.
local function note_request(frame, packet, is_frame)
    local connection, note = connection_of(packet, true), { frame = packet.number, time = packet.rel_ts }
    connection.requests[#connection.requests + 1] = note
    if is_frame and FIELDS[frame(2, 1):uint()][1][1] == "gate" then
        local name = string.format("%s %d %s", packet.dst, packet.dst_port, frame(3, 6):bytes():tohex())
        local bytes = frame:bytes():tohex()
        local first = touches[name]
        if first == nil then
            touches[name] = { frame = packet.number, bytes = bytes }
        else
            note.first, note.is_same = first.frame, first.bytes == bytes
        end
    end
    return note
end

-- Notes an answer, once, and ties it to its request.
local function note_answer(packet)
    local connection = connection_of(packet, false)
    connection.answers = connection.answers + 1
    local request = connection.requests[connection.answers]
    if request == nil then
        return {}
    end
    request.answer = packet.number
    local after = packet.rel_ts - request.time
    return { request = request.frame, after = NSTime.new(math.floor(after), math.floor(after % 1 * 1e9 + 0.5)) }
end

-- Adds the fields of a frame behind its kind. Returns their bytes by their names.
local function add_fields(frame, tree, kind)
    local at, parts = 3, {}
    for _, field in ipairs(FIELDS[kind]) do
        local name, size = field[1], field[2]
        parts[name] = frame(at, size)
        tree:add(fields[name], parts[name])
        if name == "verdict" then
            tree:add(fields.accepted, parts[name], parts[name]:uint() < FIRST_REFUSAL):set_generated()
        end
        at = at + size
    end
    return parts
end

-- What a touch is about, in words.
local function act_in_words(parts)
    if parts.station then
        return " at " .. parts.station:uint()
    elseif parts.pence then
        return " by " .. parts.pence:uint()
    elseif parts.day then
        return " from day " .. parts.day:int()
    end
    return ""
end

local function add_request(frame, tree, kind, note)
    local said, parts = KINDS[kind], add_fields(frame, tree, kind)
    if parts.gate then
        said = string.format("%s %d/%d: card %d%s", said, parts.gate:uint(), parts.number:uint(), parts.card:uint(),
                             act_in_words(parts))
    else
        said = said .. " of card " .. parts.card:uint()
    end
    if note.first and note.is_same then
        tree:add(fields.repeat_of, note.first):set_generated()
        tree:add_proto_expert_info(is_repeat)
        said = said .. " [repeat]"
    elseif note.first then
        tree:add_proto_expert_info(is_other)
    end
    if note.answer then
        tree:add(fields.response_in, note.answer):set_generated()
    end
    return said
end

local function reply_in_words(parts)
    local verdict = parts.verdict:uint()
    return string.format("Reply %d/%d: %s, %d, %s", parts.gate:uint(), parts.number:uint(),
                         VERDICTS[verdict] or ("verdict " .. verdict), parts.change:int(), tostring(parts.balance:int64()))
end

local function holding_in_words(parts)
    local state = parts.state:uint()
    return string.format("Enquiry answer: %s, %s, front %d", STATES[state] or ("state " .. state),
                         tostring(parts.balance:int64()), parts.front:uint())
end

local function fault_in_words(parts)
    local code = parts.code:uint()
    return string.format("Fault %s %d/%d", FAULTS[code] or code, parts.gate:uint(), parts.number:uint())
end

local IN_WORDS = { [0x81] = reply_in_words, [0x85] = holding_in_words, [0xff] = fault_in_words }

local function add_answer(frame, tree, kind)
    local parts = add_fields(frame, tree, kind)
    if parts.code then
        tree:add_proto_expert_info(is_fault)
    end
    return IN_WORDS[kind] and IN_WORDS[kind](parts) or KINDS[kind]
end

-- What was noted of the frame that ends in this packet, as the count-th of it.
local function noted(packet, count, make)
    local name = packet.number .. " " .. count
    notes[name] = notes[name] or make()
    return notes[name]
end

local function add_frame(frame, packet, root, count)
    local kind = frame(2, 1):uint()
    local tree = root:add(bovtrila, frame)
    tree:add(fields.length, frame(0, 2))
    tree:add(fields.kind, frame(2, 1))
    local said
    if kind >= 0x80 then
        local note = noted(packet, count, function() return note_answer(packet) end)
        said = add_answer(frame, tree, kind)
        if note.request then
            tree:add(fields.response_to, note.request):set_generated()
            tree:add(fields.response_time, note.after):set_generated()
        end
    else
        local note = noted(packet, count, function() return note_request(frame, packet, true) end)
        said = add_request(frame, tree, kind, note)
    end
    tree:append_text(", " .. said)
    return said
end

-- Bytes that begin no frame. A gate's are answered by fault 1, and the session ends: so all that follows is of them.
local function add_bad(rest, packet, root, count, is_request)
    local note = is_request and noted(packet, count, function() return note_request(rest, packet, false) end) or {}
    local tree = root:add(bovtrila, rest)
    tree:add(fields.bad, rest)
    tree:add_proto_expert_info(is_bad)
    if note.answer then
        tree:add(fields.response_in, note.answer):set_generated()
    end
    return "No frame"
end

-- How many frames of this packet were shown before: it may be dissected in parts, as a record of TLS each.
local function shown_before(packet, more)
    local before = tonumber(packet.private["bovtrila"] or "0")
    packet.private["bovtrila"] = tostring(before + more)
    return before
end

-- Whether the first bytes of a connection's requests are here.
local function begins_here(packet, before)
    local connection = connection_of(packet, true)
    return before == 0 and (connection.first or packet.number) == packet.number
end

function bovtrila.dissector(buffer, packet, root)
    local at, said, before = 0, {}, shown_before(packet, 0)
    -- The port by which the packet was given to this dissector is the server's, also below TLS.
    local is_request = packet.dst_port == packet.match_uint
    packet.cols.protocol = "Bovtrila"
    local header = is_request and begins_here(packet, before) and header_at(buffer)
    if header == 0 then
        packet.desegment_offset, packet.desegment_len = 0, DESEGMENT_ONE_MORE_SEGMENT
        return buffer:len()
    elseif header then
        said[1], at = add_header(buffer(0, header), packet, root), header
    end
    while at < buffer:len() do
        local size = frame_at(buffer, at, is_request)
        if size == nil then
            said[#said + 1] = add_bad(buffer(at), packet, root, before + #said, is_request)
            at = buffer:len()
        elseif size == 0 then
            packet.desegment_offset = at
            packet.desegment_len = DESEGMENT_ONE_MORE_SEGMENT
            break
        else
            said[#said + 1] = add_frame(buffer(at, size), packet, root, before + #said)
            at = at + size
        end
    end
    shown_before(packet, #said)
    if is_request and #said > 0 then
        local connection = connection_of(packet, true)
        connection.first = connection.first or packet.number
    end
    if #said > 0 and before > 0 then
        packet.cols.info:append("; " .. table.concat(said, "; "))
    elseif #said > 0 then
        packet.cols.info = table.concat(said, "; ")
    end
    return buffer:len()
end

DissectorTable.get("tcp.port"):add(PORT, bovtrila)
DissectorTable.get("tcp.port"):add(TLS_PORT, Dissector.get("tls"))
DissectorTable.get("tls.port"):add(TLS_PORT, bovtrila)
