"""A decoder of telegrams and messages that needs nothing but share/etcs.tables.json."""


class NoItem(Exception):
    """The bytes don't begin with an item."""


def is_in(number, ranges):
    """Returns whether a number is in one of these ranges."""
    return any(low <= number <= high for low, high in ranges)


class Decoder:
    """Reads an item: variables with their numbers or bits, what each number means, and the place of the next bit."""

    def __init__(self, tables, kind, data):
        self.tables, self.kind, self.name = tables, tables["kinds"][kind], kind
        self.digits = "".join(f"{byte:08b}" for byte in data)
        self.at, self.limit = 0, len(self.digits)
        self.pairs, self.numbers, self.meanings = [], {}, []

    def bits(self, count):
        """Takes this many bits."""
        if self.limit - self.at < count:
            raise NoItem(f"{count} bits at {self.at}, and {self.limit - self.at} are left")
        self.at += count
        return self.digits[self.at - count : self.at]

    def variable(self, var):
        """Takes a variable, and returns its number."""
        table = self.tables["variables"][var]
        number = int(self.bits(table["bits"]), 2)
        if not is_in(number, table["admits"]):
            raise NoItem(f"{var} {number}")
        self.numbers[var] = number
        self.pairs.append((table["name"], number))
        self.meanings.append(meaning(table, number, self.scale()))
        return number

    def scale(self):
        """Returns the unit of distances in metres; nothing if it isn't known."""
        return self.tables["variables"]["Q_SCALE"]["steps"].get(str(self.numbers.get("Q_SCALE")))

    def row(self, items):
        """Takes the variables of a row."""
        for item in items:
            if isinstance(item, str):
                self.variable(item)
            elif "times" in item:
                for _ in range(self.numbers[item["times"]]):
                    self.row(item["row"])
            elif is_in(self.numbers[item["when"]], item["is"]):
                self.row(item["row"])

    def rest(self, name):
        """Takes all bits that are left."""
        self.pairs.append((name, self.bits(self.limit - self.at)))
        self.meanings.append(None)

    def limit_to(self, end):
        """Lets no more bits be taken than those before a place."""
        if not self.at <= end <= self.limit:
            raise NoItem(f"the length ends at {end}")
        self.limit = end

    def packet(self):
        """Takes a packet, and returns its number."""
        begin, outer, table = self.at, self.limit, self.tables["packets"][self.kind["packets"]]
        nid = self.variable("NID_PACKET")
        packet = entry(table["list"], nid)
        self.meanings[-1] = packet.get("name")
        if self.name not in packet.get("only_in", self.name):
            raise NoItem(f"packet {nid}")
        frame = packet.get("frame", table["frame"])
        self.row(frame[1:])
        if "L_PACKET" in frame:
            self.limit_to(begin + self.numbers["L_PACKET"])
        self.body(packet, table["kept"])
        if "L_PACKET" in frame and self.at < self.limit:
            raise NoItem(f"packet {nid} is shorter than its length")
        self.limit = outer
        return nid

    def body(self, entry, kept):
        """Takes what follows a frame: the row of a typed packet or message, otherwise its bits."""
        if "row" in entry:
            self.row(entry["row"])
        else:
            self.rest(kept["rest"])

    def telegram(self):
        """Takes a telegram."""
        whole = 8 * self.kind["bytes"][0]
        self.limit_to(whole)
        self.limit_to(self.kind["bits"])
        self.row(self.kind["header"])
        while self.packet() != self.kind["last_packet"]:
            pass
        self.rest(self.kind["rest"])
        self.limit = whole
        admits = self.tables["variables"][self.kind["pad"]]["admits"]
        if not all(is_in(int(it), admits) for it in self.bits(whole - self.at)):
            raise NoItem(self.kind["pad"])

    def message(self):
        """Takes a message."""
        self.row(self.kind["frame"])
        self.limit_to(8 * self.numbers["L_MESSAGE"])
        message = entry(self.kind["list"], self.numbers["NID_MESSAGE"])
        self.meanings[0] = message.get("name")
        if "row" in message:
            self.row(self.kind["header"])
        self.body(message, self.kind["kept"])
        while self.limit - self.at >= 8:
            self.packet()
        if "row" in message:
            self.rest(self.kind["rest"])

    def item(self):
        """Takes an item."""
        if "last_packet" in self.kind:
            self.telegram()
        else:
            self.message()


def entry(entries, nid):
    """Returns the entry of a number; an empty one if there is none."""
    return next((it for it in entries if it["nid"] == nid), {})


def meaning(table, number, scale):
    """Returns what a number of a variable means, with this unit of distances; nothing if it means nothing further."""
    if text := table.get("meanings", {}).get(str(number)):
        return text
    if "parts" in table:
        return ", ".join(parts(table["parts"], number))
    if "plus" in table:
        return f"{number + table['plus']} {table['unit']}" if "unit" in table else f"position {number + table['plus']}"
    if "characters" in table:
        return f"'{chr(number)}'" if 32 <= number < 127 or number >= 160 else "'.'"
    return f"{number:0{table['digits']}x}" if "digits" in table else measured(table, number, scale)


def parts(table, number):
    """Returns the parts of a number, the last one in the lowest bits."""
    found = []
    for name, bits in reversed(table):
        found.insert(0, f"{name} {number % 2**bits}")
        number //= 2**bits
    return found


def measured(table, number, scale):
    """Returns a number in its unit, with as many decimals as the step has."""
    step = scale if table.get("step") == "Q_SCALE" else table.get("step")
    if step is None or number > table.get("most", number):
        return None
    if table.get("signed") and number >> table["bits"] - 1:
        number -= 2 ** table["bits"]
    return f"{number * step:.{2 if step < 0.1 else 1 if step < 1 else 0}f} {table['unit']}"


def decoded(tables, kind, data):
    """Returns the decoders that have read each item of some bytes; nothing if they aren't whole items."""
    found = []
    try:
        while data:
            found.append(Decoder(tables, kind, data))
            found[-1].item()
            data = data[found[-1].at // 8 :]
    except NoItem:
        return None
    return found
