-- A Wireshark dissector of balise telegrams and radio messages of ETCS (SUBSET-026 3.6.0, chapters 7 and 8).
--
-- It needs etcs_tables.lua in the same folder. docs/BINDINGS.md describes how to install and use it. It is tested against the
-- proved program, but not proved.

local tables = require("etcs_tables")

-- ---- The tables by numbers.

local function by_number(list)
    local found = {}
    for _, entry in ipairs(list) do
        found[entry.nid] = entry
    end
    return found
end

local packets, messages = {}, {}
for way, value in pairs(tables.packets) do
    packets[way] = {frame = value.frame, rest = value.kept.rest, by_number = by_number(value.list)}
end
for _, kind in ipairs({"radio", "train"}) do
    messages[kind] = by_number(tables.kinds[kind].list)
end

local function is_in(number, ranges)
    for _, range in ipairs(ranges) do
        if number >= range[1] and number <= range[2] then
            return true
        end
    end
    return false
end

local function contains(list, value)
    for _, it in ipairs(list) do
        if it == value then
            return true
        end
    end
    return false
end

-- Ranges as text: `0 to 120, 127`.
local function ranges_text(ranges)
    local texts = {}
    for _, range in ipairs(ranges) do
        table.insert(texts, range[1] == range[2] and tostring(range[1]) or string.format("%d to %d", range[1], range[2]))
    end
    return table.concat(texts, ", ")
end

-- ---- What numbers mean.

-- The character of ISO 8859-1 that has a number, in UTF-8; a dot for controls.
local function character(number)
    if number < 32 or number >= 127 and number < 160 then
        return "."
    end
    return number < 128 and string.char(number) or string.char(192 + math.floor(number / 64), 128 + number % 64)
end

-- The parts of a number, the last one in the lowest bits: `NID_C 98, NID_BG 511`.
local function in_parts(parts, number)
    local texts = {}
    for index = #parts, 1, -1 do
        local size = 2 ^ parts[index][2]
        table.insert(texts, 1, string.format("%s %d", parts[index][1], number % size))
        number = math.floor(number / size)
    end
    return table.concat(texts, ", ")
end

-- A number in its unit, with as many decimals as the step has; nothing if it has none or the scale isn't known.
local function measured(variable, number, scale)
    local step = variable.step
    if step == "Q_SCALE" then
        step = tables.variables.Q_SCALE.steps[scale]
    end
    if not step or number > (variable.most or number) then
        return nil
    end
    local decimals = step < 0.1 and 2 or step < 1 and 1 or 0
    return string.format("%." .. decimals .. "f %s", number * step, variable.unit)
end

-- What a number of a variable means, with this number of Q_SCALE; nothing if it means nothing further.
local function meaning(variable, number, scale)
    if variable.meanings and variable.meanings[number] then
        return variable.meanings[number]
    elseif variable.parts then
        return in_parts(variable.parts, number)
    elseif variable.plus then
        return string.format(variable.unit and "%d %s" or "position %d", number + variable.plus, variable.unit)
    elseif variable.characters then
        return string.format("'%s'", character(number))
    elseif variable.digits then
        return string.format("%0" .. variable.digits .. "x", number)
    end
    return measured(variable, number, scale or -1)
end

-- ---- Reading an item into nodes: variables with numbers, bits, and groups of nodes.

local Reader = {}
Reader.__index = Reader

-- A reader of an item of a kind that begins at a place in digits 0 and 1.
function Reader.new(name, digits, first)
    local root = {first = first, nodes = {}}
    local reader = {name = name, kind = tables.kinds[name], digits = digits, first = first, at = first, limit = #digits}
    reader.root, reader.node, reader.numbers, reader.packet_numbers, reader.is_whole = root, root, {}, {}, true
    return setmetatable(reader, Reader)
end

-- Notes why the item is refused at a node.
function Reader:refuse(node, format, ...)
    node.refused = node.refused or string.format(format, ...)
    self.is_whole = false
end

-- Appends a node of this many bits, and takes them.
function Reader:append(node, count)
    node.first, node.last = self.at, self.at + count
    node.digits = self.digits:sub(node.first + 1, node.last)
    self.at = node.last
    table.insert(self.node.nodes, node)
    return node
end

-- Takes all bits up to the limit as bits of a variable, or as bits that belong to nothing.
function Reader:rest(name)
    return self:append({name = name or "Left over", field = (name or "left_over"):lower()}, self.limit - self.at)
end

-- Reads a group of nodes, and returns what `read` does with it.
function Reader:group(label, read)
    local outer, group = self.node, self:append({label = label, nodes = {}}, 0)
    self.node = group
    local found = read(group)
    self.node, group.last = outer, self.at
    return found
end

-- Reads a variable, and returns its node; nothing, and takes all bits, if there are too few.
function Reader:variable(key)
    local variable, left = tables.variables[key], self.limit - self.at
    if left < variable.bits then
        self:refuse(self:rest(), "%s has %d bits, and %d are left", variable.name, variable.bits, left)
        return nil
    end
    local node = self:append({name = variable.name, field = variable.name:lower(), variable = variable}, variable.bits)
    if variable.bits <= 32 then
        self:judge(node, tonumber(node.digits, 2), key)
    end
    return node
end

-- Gives a node its number.
function Reader:judge(node, number, key)
    local variable = node.variable
    self.numbers[key] = number
    node.number = variable.signed and node.digits:sub(1, 1) == "1" and number - 2 ^ variable.bits or number
    node.meaning = meaning(variable, node.number, self.numbers.Q_SCALE)
    if not is_in(number, variable.admits) then
        self:refuse(node, "%s admits %s, not %d", variable.name, ranges_text(variable.admits), number)
    end
end

-- Reads the variables of a row, and returns whether there were bits for all.
function Reader:row(items)
    for _, item in ipairs(items) do
        local is_read = true
        if type(item) == "string" then
            is_read = self:variable(item) ~= nil
        elseif item.times then
            is_read = self:entries(item.row, self.numbers[item.times])
        elseif is_in(self.numbers[item.when], item.is) then
            is_read = self:row(item.row)
        end
        if not is_read then
            return false
        end
    end
    return true
end

-- Reads a row several times, each time into a group, or all into one if the row is a single variable.
function Reader:entries(row, count)
    if #row == 1 and count > 0 then
        return self:group(string.format("%d entries", count), function(group) return self:series(row, count, group) end)
    end
    for entry = 1, count do
        if not self:group(string.format("Entry %d of %d", entry, count), function() return self:row(row) end) then
            return false
        end
    end
    return true
end

-- Reads a variable several times into a group, which is a text if the variable is a character.
function Reader:series(row, count, group)
    local characters = {}
    for index = 1, count do
        if not self:row(row) then
            return false
        end
        characters[index] = character(self.numbers[row[1]])
    end
    if tables.variables[row[1]].characters then
        group.text = table.concat(characters)
        group.label = string.format('Text: "%s"', group.text)
    end
    return true
end

-- Lets no more bits be taken than a length has, which counts from `first` in `unit` bits; returns whether it is possible.
function Reader:limit_to(length, first, unit)
    local last = first + length.number * unit
    if last >= self.at and last <= self.limit then
        self.limit = last
        return true
    end
    local least, most = math.ceil((self.at - first) / unit), math.floor((self.limit - first) / unit)
    self:refuse(length, "%s is %d, and %d to %d are possible here", length.name, length.number, least, most)
    return false
end

-- Reads the frame of a packet after its number, and limits what is read to the packet's length if it has one.
function Reader:frame(frame, first)
    for index = 2, #frame do
        local node = self:variable(frame[index])
        if not node then
            return false
        elseif frame[index] == "L_PACKET" and not self:limit_to(node, first, 1) then
            self:rest()
            return false
        end
    end
    return true
end

-- Reads a packet into its group, and returns its number; nothing, and takes all bits, if its end isn't known.
function Reader:packet(group)
    local way, outer = packets[self.kind.packets], self.limit
    local node = self:variable("NID_PACKET")
    if not node then
        return nil
    end
    local packet = way.by_number[node.number] or {}
    node.meaning = packet.name
    group.label = string.format("Packet %d%s", node.number, packet.name and ": " .. packet.name or "")
    if packet.only_in and not contains(packet.only_in, self.name) then
        self:refuse(node, "a %s has no packet %d", self.kind.name, node.number)
        self:rest()
        return nil
    end
    if not self:frame(packet.frame or way.frame, node.first) then
        return nil
    end
    self:body(packet, way.rest)
    self.limit = outer
    return node.number
end

-- Reads the row of a packet, or its bits if it has no row.
function Reader:body(packet, rest)
    if not packet.row then
        self:rest(rest)
    elseif self:row(packet.row) and not packet.frame and self.at < self.limit then
        local left = self.limit - self.at
        self:refuse(self:rest(), "L_PACKET has %d bits more than this packet %d", left, packet.nid)
    end
end

-- Reads packets as long as `is_more` of the last one's number holds; returns whether all were read.
function Reader:packets(is_more)
    local nid
    while is_more(nid) do
        nid = self:group("Packet", function(group) return self:packet(group) end)
        if not nid then
            return false
        end
        if nid ~= self.kind.last_packet then
            table.insert(self.packet_numbers, nid)
        end
    end
    return true
end

function Reader:telegram()
    local kind, last = self.kind, self.first + 8 * self.kind.bytes[1]
    if last > self.limit then
        self:refuse(self.root, "a %s has %d bytes, and %d are left", kind.name, kind.bytes[1], (self.limit - self.first) / 8)
        last = self.limit
    end
    self.limit = math.min(self.first + kind.bits, last)
    if self:row(kind.header) and self:packets(function(nid) return nid ~= kind.last_packet end) then
        self:rest(kind.rest)
    end
    self.limit = last
    local pad = self:rest(kind.pad)
    if pad.digits:find("1") then
        self:refuse(pad, "the bits of PAD are zeros")
    end
end

function Reader:message()
    local kind, nodes = self.kind, self.root.nodes
    if not self:row(kind.frame) then
        return
    end
    local message = messages[self.name][self.numbers.NID_MESSAGE] or {}
    nodes[1].meaning = message.name
    if not self:limit_to(nodes[2], self.first, 8) and nodes[2].number < kind.bytes[1] then
        self:rest()
    elseif not message.row then
        self:rest(kind.kept.rest)
    elseif self:row(kind.header) and self:row(message.row) then
        if self:packets(function() return self.limit - self.at >= 8 end) then
            self:rest(kind.rest)
        end
    end
end

-- Reads the item of a kind that begins at a bit, and returns the reader.
local function read_item(name, digits, first)
    local reader = Reader.new(name, digits, first)
    if reader.kind.last_packet then
        reader:telegram()
    else
        reader:message()
    end
    reader.root.last = reader.at
    return reader
end

-- Reads the items of a kind that digits consist of.
local function read_items(name, digits)
    local readers, at = {}, 0
    while at < #digits do
        table.insert(readers, read_item(name, digits, at))
        at = readers[#readers].at
    end
    return readers
end

local function is_whole(name, digits)
    local reader = read_item(name, digits, 0)
    return reader.is_whole and reader.at == #digits
end

-- The size of telegrams that has this many bytes; nothing if none has.
local function size_of(bytes)
    for _, name in ipairs({"short", "long"}) do
        if bytes == tables.kinds[name].bytes[1] then
            return name
        end
    end
end

-- The way of a message with these digits, by its number.
local function way_of(digits)
    local to_track, nid = tables.kinds.train.list, tonumber(digits:sub(1, 8), 2)
    return nid >= to_track[1].nid and nid <= to_track[#to_track].nid and "train" or "radio"
end

-- The kind of a payload, by the rule of `etcs log`: a telegram if it is one, otherwise a message if it is one. What is neither
-- has the kind of its length.
local function guessed_kind(digits)
    local size, way = size_of(#digits / 8), way_of(digits)
    if size and (is_whole(size, digits) or not is_whole(way, digits)) then
        return size
    end
    return way
end

-- ---- Fields.

local etcs = Proto("etcs", "ETCS balise telegrams and radio messages")
local refused = ProtoExpert.new("etcs.refused", "Refused", expert.group.MALFORMED, expert.severity.ERROR)
local fields = {
    left_over = ProtoField.string("etcs.left_over", "Left over", "Bits that belong to no variable"),
    text = ProtoField.string("etcs.text", "Text", "The characters of X_TEXT"),
}

local KEPT = {FILL = true, OTHER_DATA = true, PADDING = true, PAD = true} -- their bits are texts of digits

local function field_of(variable)
    local filter, name, text = "etcs." .. variable.name:lower(), variable.name, variable.text
    if KEPT[name] then
        return ProtoField.string(filter, name, text)
    elseif variable.signed then
        return ProtoField.int16(filter, name, base.DEC, nil, nil, text)
    elseif variable.bits > 32 then
        return ProtoField.uint64(filter, name, base.HEX, nil, nil, text)
    end
    local types = {ProtoField.uint8, ProtoField.uint16, ProtoField.uint24, ProtoField.uint32}
    return types[math.ceil(variable.bits / 8)](filter, name, base.DEC, variable.meanings, nil, text)
end

for _, variable in pairs(tables.variables) do
    local name = variable.name:lower()
    fields[name] = fields[name] or field_of(variable)
end
etcs.fields = fields
etcs.experts = {refused}

-- ---- Showing nodes.

-- The bytes in which a node's bits are.
local function range_of(node, tvb)
    local first = math.floor(node.first / 8)
    return tvb:range(first, math.ceil(node.last / 8) - first)
end

local MOST_DIGITS = 80 -- of bits in a line

-- The value of a node's field, and its text.
local function value_of(node)
    if not node.variable then
        local digits = #node.digits > MOST_DIGITS and node.digits:sub(1, MOST_DIGITS) .. ".." or node.digits
        return node.digits, string.format("%s, %d bits: %s", node.name, #node.digits, digits)
    elseif not node.number then
        local low, high = tonumber(node.digits:sub(-32), 2), tonumber(node.digits:sub(1, -33), 2)
        return UInt64(low, high), string.format("%s: %08x%08x", node.name, high, low)
    end
    local meant = node.meaning and string.format(" (%s)", node.meaning) or ""
    return node.number, string.format("%s: %d%s", node.name, node.number, meant)
end

local add_nodes

local function add_node(tree, node, tvb)
    local item
    if node.nodes then
        item = tree:add(range_of(node, tvb), node.label)
        if node.text then
            item:add(fields.text, range_of(node, tvb), node.text):set_generated()
        end
        add_nodes(item, node.nodes, tvb)
    else
        local value, text = value_of(node)
        item = tree:add(fields[node.field], range_of(node, tvb), value)
        item:set_text(text)
    end
    if node.refused then
        item:add_proto_expert_info(refused, node.refused)
    end
end

function add_nodes(tree, nodes, tvb)
    for _, node in ipairs(nodes) do
        add_node(tree, node, tvb)
    end
end

-- Which item it is: the balise group of a telegram, the number and name of a message.
local function identity(reader)
    local list, nodes, texts = messages[reader.name], reader.root.nodes, {}
    for _, node in ipairs(nodes) do
        if node.number and (node.name == "NID_C" or node.name == "NID_BG" or node.name == "NID_MESSAGE") then
            table.insert(texts, string.format("%s %d", node.name, node.number))
        end
    end
    if list then
        table.insert(texts, (list[reader.numbers.NID_MESSAGE] or {}).name)
    end
    return texts
end

-- The line of an item: its kind, which one it is, its packets, and whether it is refused.
local function title_of(reader)
    local texts = identity(reader)
    table.insert(texts, 1, reader.kind.name)
    if #reader.packet_numbers > 0 then
        table.insert(texts, "packets " .. table.concat(reader.packet_numbers, " "))
    end
    if not reader.is_whole then
        table.insert(texts, "refused")
    end
    return table.concat(texts, ", ")
end

-- Shows the items of a kind that a payload consists of.
local function show(name, digits, tvb, pinfo, tree)
    local titles = {}
    for _, reader in ipairs(read_items(name, digits)) do
        local title = title_of(reader)
        table.insert(titles, title)
        local item = tree:add(etcs, range_of(reader.root, tvb), "ETCS " .. title)
        if reader.root.refused then
            item:add_proto_expert_info(refused, reader.root.refused)
        end
        add_nodes(item, reader.root.nodes, tvb)
    end
    pinfo.cols.protocol = "ETCS"
    pinfo.cols.info = table.concat(titles, "; ")
    return tvb:len()
end

local DIGITS = {} -- of each byte
for byte = 0, 255 do
    local digits = ""
    for bit = 7, 0, -1 do
        digits = digits .. (math.floor(byte / 2 ^ bit) % 2 == 1 and "1" or "0")
    end
    DIGITS[string.char(byte)] = digits
end

-- The bytes of a payload as digits 0 and 1.
local function digits_of(tvb)
    return (tvb:raw():gsub(".", DIGITS))
end

-- ---- Where payloads come from.

local AUTOMATIC = "automatic"
local KINDS = {AUTOMATIC, "short", "long", "radio", "train"}
local choices = {}
for index, kind in ipairs(KINDS) do
    choices[index] = {index, kind, index}
end
etcs.prefs.kind = Pref.enum("Kind", 1, "What the payloads of these ports are", choices, false)
etcs.prefs.ports = Pref.range("UDP ports", "", "Ports whose payloads are telegrams or messages", 65535)

function etcs.dissector(tvb, pinfo, tree)
    local digits, kind = digits_of(tvb), KINDS[etcs.prefs.kind]
    if kind == AUTOMATIC and #digits > 0 then
        kind = guessed_kind(digits)
    end
    return show(kind, digits, tvb, pinfo, tree)
end

local udp = DissectorTable.get("udp.port")
local ports = ""

function etcs.prefs_changed()
    if ports ~= etcs.prefs.ports then
        udp:remove(ports, etcs)
        ports = etcs.prefs.ports
        udp:add(ports, etcs)
    end
end

-- Payloads that can't be anything else, with no port at all.
etcs:register_heuristic("udp", function(tvb, pinfo, tree)
    local size = size_of(tvb:len())
    local digits = size and digits_of(tvb)
    if not size or not is_whole(size, digits) then
        return false
    end
    show(size, digits, tvb, pinfo, tree)
    return true
end)

udp:add_for_decode_as(etcs)
for index = 2, #KINDS do
    local kind = KINDS[index]
    local proto = Proto("etcs_" .. kind, "ETCS " .. tables.kinds[kind].name)
    function proto.dissector(tvb, pinfo, tree)
        return show(kind, digits_of(tvb), tvb, pinfo, tree)
    end
    udp:add_for_decode_as(proto)
end
