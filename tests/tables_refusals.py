"""Why bytes are refused, by share/etcs.tables.json alone.

A refused variable is found by trying: a number may come if something continues with it, that is, if some item has the variables
up to here and then this number. What can follow is a set of lengths in bits, in which bit n of an integer stands for n.
"""

from collections import namedtuple
from functools import lru_cache

from tables_decoder import entry, is_in

MOST = 8191  # the largest number of L_PACKET
ALL = (1 << MOST + 1) - 1
WIDEST = 13  # bits of a variable of which each number is tried
BYTE = 8  # bits; after the last packet of a message are fewer
ANY, MESSAGE_LENGTH, PACKET_NUMBER, PACKET_LENGTH, ROW = "any", "message length", "packet number", "packet length", "row"

# A refused bit: its variable, what limits it here, and the number of the message or packet that this names; the bits that are left
# of what it has to fit; the least and the greatest number that begin with the bits, and the one that the bytes have; why, and the
# nearest numbers; the packet that the variable is in.
Refusal = namedtuple("Refusal", "bit var name here nid room low high number cause below above packet")


class Refused(Exception):
    """A bit is refused: with the refusal."""


class Open(Exception):
    """The bytes end inside an item."""


def bits_of(data):
    """Returns the bits of some bytes as digits."""
    return "".join(f"{byte:08b}" for byte in data)


def members(lengths):
    """Yields the numbers of a set."""
    while lengths:
        least = lengths & -lengths
        yield least.bit_length() - 1
        lengths ^= least


@lru_cache(5_000)
def flags(lengths):
    """Returns a digit for each number up to MOST: 1 if it is in a set."""
    return f"{lengths:0{MOST + 1}b}"[::-1]


@lru_cache(30_000)
def sums(one, other):
    """Returns the sums of a number of each of two sets."""
    if bin(one).count("1") > bin(other).count("1"):
        one, other = other, one
    found = 0
    for length in members(one):
        found |= other << length
    return found & ALL


@lru_cache(30_000)
def times(lengths, count):
    """Returns the sums of this many numbers of a set."""
    return sums(times(lengths, count - 1), lengths) if count else 1


def decider(item):
    """Returns the variable that decides how often a group is there."""
    return None if isinstance(item, str) else item.get("times") or item["when"]


class Rows:
    """The lengths that rows may have."""

    def __init__(self, variables):
        self.variables, self.known, self.deciders = variables, {}, {}

    def left(self, items, index, read):
        """Returns the lengths that a list of items may have from a place on, where these numbers were read before it."""
        place = (id(items), index)
        if place not in self.deciders:
            self.deciders[place] = {decider(it) for it in items[index:]} - {None}
        key = (place, *[(var, read[var]) for var in self.deciders[place] if var in read])
        if key not in self.known:
            self.known[key] = self.all_left(items, index, read)
        return self.known[key]

    def all_left(self, items, index, read):
        """The same, if it isn't known yet."""
        if index == len(items):
            return 1
        item = items[index]
        if not isinstance(item, str):
            group = times(self.left(item["row"], 0, {}), count_of(item, read))
            return sums(group, self.left(items, index + 1, read))
        table, found = self.variables[item], 0
        if not any(decider(it) == item for it in items[index + 1 :]):
            return self.left(items, index + 1, read) << table["bits"] & ALL
        for low, high in table["admits"]:
            for number in range(low, high + 1):
                found |= self.left(items, index + 1, {**read, item: number})
        return found << table["bits"] & ALL


def count_of(item, read):
    """Returns how often a group is there, where these numbers were read before it in its list."""
    return read[item["times"]] if "times" in item else int(is_in(read[item["when"]], item["is"]))


class Reader:
    """Reads items of a kind, and finds why one is refused."""

    def __init__(self, tables, name):
        self.name, self.kind, self.variables = name, tables["kinds"][name], tables["variables"]
        self.packets, self.rows = tables["packets"][self.kind["packets"]], Rows(self.variables)
        self.is_telegram = "last_packet" in self.kind
        if self.is_telegram:
            self.closing = self.bits(self.frame(self.kind["last_packet"]))  # of the packet that has to follow the others
        self.lengths = {nid: self.packet_lengths(nid) for nid in range(256)}
        self.fits, self.turned = self.fitting()

    # ---- What the tables have.

    def bits(self, row):
        """Returns how many bits these variables have."""
        return sum(self.variables[it]["bits"] for it in row)

    def frame(self, nid):
        """Returns the frame of a packet."""
        return entry(self.packets["list"], nid).get("frame", self.packets["frame"])

    def packet_lengths(self, nid):
        """Returns the lengths of the packets of a number; none if items of the kind have no such packet."""
        packet, frame = entry(self.packets["list"], nid), self.frame(nid)
        if self.name not in packet.get("only_in", self.name):
            return 0
        body = self.rows.left(packet["row"], 0, {}) if "row" in packet else ALL
        return body << self.bits(frame) & ALL

    def fitting(self):
        """Returns the numbers of bits that may be left after a packet, and MOST less each of them."""
        every = 0
        for lengths in self.lengths.values():
            every |= lengths
        fits, turned = 0, 0
        for room in range(MOST + 1):
            if (room >= self.closing if self.is_telegram else room < BYTE) or every << MOST - room & turned:
                fits |= 1 << room
                turned |= 1 << MOST - room
        return fits, turned

    # ---- An item.

    def read(self, digits, goes_on=False):
        """Reads the item at the front of some bits; raises Refused or Open if there is none.

        If it `goes_on`, bits that are missing are added: of each variable the least number that may come.
        """
        self.digits, self.at, self.goes_on = digits, 0, goes_on
        self.places, self.inside = [], None
        if self.is_telegram:
            self.telegram()
        else:
            self.message()

    def telegram(self):
        """Reads a telegram."""
        for var in self.kind["header"]:
            self.any(var)
        end = self.kind["bits"]
        while self.packet(end) != self.kind["last_packet"]:
            pass
        self.skip(end)
        while self.at < BYTE * self.kind["bytes"][0]:
            self.any(self.kind["pad"])

    def message(self):
        """Reads a message."""
        nid = self.any("NID_MESSAGE")
        message = entry(self.kind["list"], nid)
        row = [*self.kind["header"], *message.get("row", ())]
        front = self.bits(["NID_MESSAGE", "L_MESSAGE"])

        def may(count):
            if "row" not in message:
                return BYTE * count >= front
            left = BYTE * count - front - self.bits(row)
            return left >= 0 and self.fits >> left & 1

        end = BYTE * self.variable("L_MESSAGE", may, may, MESSAGE_LENGTH, nid)
        if "row" not in message:
            return self.skip(end)
        for var in row:
            self.any(var)
        while end - self.at >= BYTE:
            self.packet(end)
        return self.skip(end)

    def packet(self, end):
        """Reads a packet that has to end before this bit, and returns its number."""
        begin, room = self.at, end - self.at
        nid = self.variable(
            "NID_PACKET", lambda it: self.may_come(it, room), lambda it: self.lengths[it] > 0, PACKET_NUMBER, None, room
        )
        last, self.inside = end, nid
        for var in self.frame(nid)[1:]:
            if var == "L_PACKET":
                last = begin + self.length(nid, room)
            else:
                self.any(var)
        self.body(entry(self.packets["list"], nid), last)
        self.inside = None
        return nid

    def length(self, nid, room):
        """Reads the length of a packet where this many bits are left."""
        good, has = flags(self.lengths[nid] & self.turned >> MOST - room), flags(self.lengths[nid])
        return self.variable("L_PACKET", lambda it: good[it] == "1", lambda it: has[it] == "1", PACKET_LENGTH, nid, room)

    def may_come(self, nid, room):
        """Returns whether a packet of a number may come where this many bits are left."""
        if self.is_telegram and nid == self.kind["last_packet"]:
            return room >= self.closing
        return bool(sums(self.lengths[nid], self.fits) >> room & 1)

    def body(self, packet, end):
        """Reads what is in a packet after its frame."""
        if "L_PACKET" not in packet.get("frame", ["L_PACKET"]):
            for var in packet["row"]:
                self.any(var)
        elif "row" in packet:
            self.row(packet["row"], 1, end)
        else:
            self.skip(end)

    def row(self, items, after, end):
        """Reads a list of items of a row; `after` are the lengths of what may follow it up to the end of the packet."""
        read = {}
        for index, item in enumerate(items):
            if isinstance(item, str):
                read[item] = self.of_row(items, index, read, after, end)
                continue
            rest, count = sums(self.rows.left(items, index + 1, read), after), count_of(item, read)
            for more in reversed(range(count)):
                self.row(item["row"], sums(times(self.rows.left(item["row"], 0, {}), more), rest), end)

    def of_row(self, items, index, read, after, end):
        """Reads a variable of a row."""
        var, room = items[index], end - self.at
        table = self.variables[var]

        def may(number):
            left = self.rows.left(items, index + 1, {**read, var: number})
            return is_in(number, table["admits"]) and room >= table["bits"] and sums(left, after) >> room - table["bits"] & 1

        return self.variable(var, may, lambda it: is_in(it, table["admits"]), ROW, self.inside, room)

    # ---- A variable.

    def any(self, var):
        """Reads a variable that may have any number that it admits."""
        admits = self.variables[var]["admits"]
        return self.variable(var, lambda it: is_in(it, admits), lambda it: is_in(it, admits), ANY)

    def skip(self, end):
        """Reads bits of which each may be 0 or 1."""
        self.at = end
        if self.goes_on:
            self.digits = self.digits.ljust(end, "0")
        if end > len(self.digits):
            raise Open

    def variable(self, var, may, has, here, nid=None, room=None):
        """Reads a variable of which these numbers may come; `has` are those that the tables have, whatever is left.

        If no number that may come begins with some bits of the variable, the first such bit is refused.
        """
        width, at = self.variables[var]["bits"], self.at
        if self.goes_on and len(self.digits) < at + width:
            self.digits = self.digits[:at] + f"{next(filter(may, range(2**width))):0{width}b}"
        digits = self.digits[at : at + width]
        number = int(digits, 2) if len(digits) == width else None
        if number is not None and may(number):
            self.places.append((at, width))
            self.at += width
            return number
        if number is None and width > WIDEST and self.variables[var]["admits"] == [[0, 2**width - 1]]:
            raise Open  # for such a variable each number may come
        assert width <= WIDEST, var
        good = [it for it in range(2**width) if may(it)]
        for count in range(1, len(digits) + 1):
            rest = width - count
            low = int(digits[:count], 2) << rest
            high = low + 2**rest - 1
            if not any(low <= it <= high for it in good):
                break
        else:
            raise Open
        cause = "unfit" if any(has(it) for it in range(low, high + 1)) else "spare"
        below, above = max((it for it in good if it < low), default=None), min((it for it in good if it > high), default=None)
        name = self.variables[var]["name"]
        raise Refused(Refusal(at + count - 1, var, name, here, nid, room, low, high, number, cause, below, above, self.inside))

    def refusal(self, data):
        """Returns why some bytes are refused; nothing if they begin with an item or end inside one."""
        try:
            self.read(bits_of(data))
        except Refused as found:
            return found.args[0]
        except Open:
            pass
        return None

    def places_of(self, data):
        """Returns the first bit and the width of each variable of an item, or of those before a refused bit."""
        self.refusal(data)
        return self.places

    def item_with(self, data, refusal, number):
        """Returns an item that has the bits before a refused variable and then this number of it."""
        width = self.variables[refusal.var]["bits"]
        first = refusal.bit + 1 - (width - (refusal.high - refusal.low).bit_length())
        self.read(bits_of(data)[:first] + f"{number:0{width}b}", True)
        return int(self.digits, 2).to_bytes(len(self.digits) // BYTE, "big")

    # ---- In words.

    def words(self, refusal):
        """Returns a refusal as the program writes it."""
        found = refusal
        if found.here == MESSAGE_LENGTH:
            lengths = entry(self.kind["list"], found.nid).get("bytes", self.kind["kept"]["bytes"])
            lengths = lengths if isinstance(lengths[0], list) else [lengths]
            return f"message {found.nid} has {ranges(lengths)} bytes{other_than(found)}"
        if found.here == ANY or found.here == ROW and found.cause == "spare":
            return f"{found.name} admits {ranges(self.variables[found.var]['admits'])}{other_than(found)}"
        if found.here == PACKET_NUMBER:
            if found.cause == "spare":
                return f"a message has no packet{span(found)}"
            return unfit("packet", found) + self.room(found)
        if found.here == PACKET_LENGTH:
            if found.cause == "spare":
                lengths = f"{found.low}" if found.low == found.high else f"{found.low} to {found.high}"
                return f"packet {found.nid} has no length of {lengths} bits{there(found)}{nearest(found)}"
            return unfit(found.name, found) + self.room(found) + nearest(found)
        left = "1 bit that is" if found.room == 1 else f"{found.room} bits that are"
        return unfit(found.name, found) + f" the {left} left of packet {found.nid}" + nearest(found)

    def room(self, refusal):
        """Returns into how many bits a packet has to fit."""
        if self.is_telegram:
            beyond = f", of which packet 255 needs {self.closing}"
        else:
            least = self.bits(self.packets["frame"])
            beyond = f": the last packet is followed by 0 to 7 bits, any other by at least {least}"
        return f" into the {refusal.room} bits that are left{beyond}"


def ranges(admitted):
    """Returns ranges of numbers in words."""
    words = {0: "{0}", 1: "{0} and {1}"}
    return " or ".join(words.get(high - low, "{0} to {1}").format(low, high) for low, high in admitted)


def span(refusal):
    """Returns the numbers that begin with the refused bits."""
    if refusal.low == refusal.high:
        return f" {refusal.low}"
    return f" from {refusal.low} to {refusal.high}{there(refusal)}"


def there(refusal):
    """Returns which number the bytes have, if several begin with the refused bits."""
    return "" if refusal.number is None or refusal.low == refusal.high else f" (found {refusal.number})"


def unfit(label, refusal):
    """Returns that none of the numbers fits."""
    if refusal.low == refusal.high:
        return f"{label} {refusal.low} doesn't fit"
    return f"no {label}{span(refusal)} fits"


def other_than(refusal):
    """Returns which number is there that isn't admitted."""
    if refusal.number is None:
        return ", and no such number begins with these bits"
    return f", not {refusal.number}"


def nearest(refusal):
    """Returns which numbers fit next to the refused ones."""
    below, above = refusal.below, refusal.above
    if below is None and above is None:
        return "; none fits"
    if below is None:
        return f"; {above} is the least that fits"
    return f"; {below} is the greatest that fits" if above is None else f"; {below} and {above} fit"
