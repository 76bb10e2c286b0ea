"""What a user of the module writes, for `mypy --strict`: bindings/test runs it too."""

from pathlib import Path
from typing import Iterator, List, Optional, Tuple

import etcs

SHORT = bytes.fromhex("A1007F8C412C62500C7FFFFFFFFFFFFFFFFFFFFFFFFFFFFFFFFFC0")

telegram: etcs.Telegram = etcs.decode(SHORT, "short")
number: int = telegram.packets[0]["Q_SRSTOP"] + telegram.packets[0].fields["Q_SRSTOP"]
pair: Tuple[str, int] = telegram.header[0]
message: etcs.Message = etcs.decode(bytearray.fromhex("18034000000000080031280620"), "radio")
nids: List[int] = [packet.nid for _, each in etcs.items(SHORT, "short") for packet in each.packets]
messages: List[etcs.Message] = etcs.Reader("train").feed(memoryview(b""))
packet = etcs.Packet(137, 1, [("Q_SRSTOP", 1)])
packet["Q_SRSTOP"] = 0
built = etcs.Telegram.build({"NID_C": 98}, [packet, etcs.blank(16)], "short")
meanings: List[str] = [packet.meaning("Q_SRSTOP"), *(it.meaning for it in etcs.variables(SHORT, "short"))]
lines: List[etcs.LogLine] = list(etcs.read_log([SHORT.hex()], "short"))
both: List[int] = [it.number for it in etcs.read_log([SHORT.hex().encode(), bytearray(b"A1")], "long,short")]
complete: List[bool] = [it.is_complete for it in etcs.groups(lines)]
names: List[str] = [name for name in telegram if name in telegram] + list(message) + list(packet)
maybe: Optional[int] = telegram.get("NID_BG")
counts: List[int] = [message.get("NID_LRBG", 0), packet.get("Q_SRSTOP", 0), telegram.header.get("NID_C", 0), message["NID_LRBG"]]
report: etcs.Message = etcs.Message.build(136, {"NID_ENGINE": 1234}, [etcs.blank(4, "train")], kind="train")
order: etcs.Message = etcs.Message.build(2, fields={"D_SR": 500})
tree: etcs.Entry = etcs.blank(5).entries()
inner: List[int] = [link["D_LINK"] for group in tree.groups for link in group]
places: List[Tuple[int, ...]] = [it.entry for it in etcs.variables(telegram)]
reasons: List[str] = [it.why for group in etcs.passages(lines) for it in group.clashed if it.telegram["N_PIG"] or it.line]
called: str = etcs.meaning("NID_PACKET", 5, kind="train")
fault = etcs.Refused(3, "FILL", "short", SHORT)
cause: Optional[etcs.Cause] = fault.cause
limits: List[Optional[int]] = [fault.number, fault.below, fault.above, fault.packet, fault.room]
misfit = etcs.NotAnItem("no item has these values")
where: Tuple[Optional[str], Optional[int]] = (misfit.path, misfit.column)
what: List[Optional[str]] = [misfit.expected, misfit.found, fault.path]


def text(data: bytes, kind: etcs.Kind) -> str:
    item: etcs.Item = etcs.decode(data, kind)
    return f"{item.kind} {etcs.show(item)} {etcs.from_fields(etcs.fields(data, kind), kind).hex()}"


def of_file(path: Path) -> Iterator[etcs.LogLine]:
    with open(path, encoding="utf-8") as file:
        yield from etcs.read_log(file, ["short"])
    yield from etcs.read_log(path, "short")
    yield from etcs.read_log(str(path), "short")
    etcs.frame(etcs.read_log(path, "short")).to_csv("log.csv")
    etcs.frame(path, "short,long")
    etcs.frame([telegram, message])


def wrong() -> None:
    """What mypy has to refuse: for a line without a fault it says that the comment isn't needed."""
    telegram.nid  # type: ignore[attr-defined]
    fault.below + 1  # type: ignore[operator]
    misfit.path + "."  # type: ignore[operator]
    assert fault.cause != "none"  # type: ignore[comparison-overlap]
    message.header["T_TRAIN"] = "0"  # type: ignore[call-overload]
    etcs.decode(SHORT, "tram")  # type: ignore[call-overload]
    etcs.check(3, "short")  # type: ignore[arg-type]
    etcs.show([65], "short")  # type: ignore[arg-type]
    etcs.read_log([[65, 49]], "short")  # type: ignore[list-item]
    etcs.read_log([3], "short")  # type: ignore[list-item]
    etcs.read_log(3, "short")  # type: ignore[arg-type]
    etcs.groups(etcs.items(SHORT, "short"))  # type: ignore[arg-type]
    message[0]  # type: ignore[index]
    etcs.Message.build(24, kind="short")  # type: ignore[arg-type]
    etcs.blank(5).entries().groups[0]["D_LINK"]  # type: ignore[call-overload]


assert (meanings[0], lines[0].item, complete) == ("stop if in SR mode", telegram, [True])
assert (names[-1], maybe, counts, inner, reasons, called) == ("Q_SRSTOP", 600, [16385, 0, 98, 16385], [], [], "Train running number")
assert (report.padding, order.padding, places[-1], tree["N_ITER"]) == ("0", "0000", (), 0)  # 74 bits of the header, 21 and 8 of packet 4
assert (number, pair, message.nid, nids, messages) == (2, ("Q_UPDOWN", 1), 24, [137], [])
assert etcs.from_dict(built.to_dict()) == built and text(SHORT, "short")
