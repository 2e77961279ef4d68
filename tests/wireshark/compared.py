"""Compares our listing of a message with what Wireshark's dissector found in it: compared.py NAME MESSAGE LISTING PDML.

Compared are the header's nine fields, and of each structure depth, place, type, parameter, length and all values, and that the
dissector knows the identifiers that we use by IBM's names. One line says what came of it; the exit status is 1 if the two differ
in any other way than by the one fault of the dissector that is known (`as_the_dissector_goes`).
"""

import pathlib
import struct
import sys
import xml.etree.ElementTree
from dataclasses import dataclass

HEADER = ["type", "length", "version", "command", "MsgSeqNbr", "control", "compcode", "reasoncode", "ParmCount"]
GROUP = 20
NAMES = {1234: "MQIACF_ROUTE_DETAIL", 1235: "MQIACF_RECORDED_ACTIVITIES", 1257: "MQIACF_UNRECORDED_ACTIVITIES",
         1237: "MQIACF_DISCONTINUITY_COUNT", 1236: "MQIACF_MAX_ACTIVITIES", 1238: "MQIACF_ROUTE_ACCUMULATION",
         1259: "MQIACF_ROUTE_FORWARDING", 1239: "MQIACF_ROUTE_DELIVERY", 8003: "MQGACF_TRACE_ROUTE",
         8005: "MQGACF_ACTIVITY", 8004: "MQGACF_OPERATION"}


@dataclass(frozen=True)
class Structure:
    depth: int
    place: int
    type: int
    parameter: int
    length: int
    values: tuple


def values_in(message, place, kind):
    """The values of a structure, by the table of structure types; counts and lengths are values too."""
    def number(at, size=4):
        return int.from_bytes(message[place + at:place + at + size], "big")

    def text(at, size):
        return message[place + at:place + at + size]

    if kind == 3:
        return (number(12),)
    if kind == 4:
        return (number(12), number(16), text(20, number(16)))
    if kind == 5:
        return (number(12), *(number(16 + 4 * i) for i in range(number(12))))
    if kind == 6:
        return (number(12), number(16), number(20), *(text(24 + i * number(20), number(20)) for i in range(number(16))))
    if kind == 9:
        return (number(12), text(16, number(12)))
    if kind == 13:
        return (number(12), number(16))
    if kind == 14:
        return (number(12), number(16), number(20), text(24, number(20)))
    if kind == 15:
        return (number(12), number(16), text(20, number(16)))
    if kind == GROUP:
        return (number(12),)
    if kind == 23:
        return (number(12), number(16, 8))
    return (number(12), *(number(16 + 8 * i, 8) for i in range(number(12))))


def ours(message, listing):
    """Header and structures as we list them, with their values."""
    rows = [tuple(map(int, line.split())) for line in listing.splitlines()[1:-1]]
    header = struct.unpack(">9I", message[:36])
    line = listing.splitlines()[0].split()
    assert line == ["pcf", *map(str, (header[0], header[3], header[8], len(message)))], line
    return header, [Structure(*row, values_in(message, row[1], row[2])) for row in rows]


def dissected(file):
    """Header and structures as the dissector found them, and the names that it has for their parameters."""
    tree = xml.etree.ElementTree.parse(file)
    protocol = next((node for node in tree.iter("proto") if node.get("name") == "mqpcf"), None)
    if protocol is None:
        raise SystemExit("the dissector did not take the message for PCF")
    fields = {node.get("name"): node for node in protocol.iter("field")}
    start = int(fields["mqpcf.cfh.type"].get("pos"))
    header = tuple(int(fields["mqpcf.cfh." + name].get("show")) for name in HEADER)
    structures, names = [], {}
    collect(protocol, 1, start, structures, names)
    return header, structures, names


def collect(node, depth, start, structures, names):
    """The structures below a node, in the dissector's order: one is a node with a type field of its own."""
    for child in node:
        own = {field.get("name").removeprefix("mqpcf.parm."): field for field in child}
        if "type" not in own:
            collect(child, depth, start, structures, names)
            continue
        parameter = own["id"] if "id" in own else own["idNoVals"]
        names[int(parameter.get("show"))] = parameter.get("showname")
        structures.append(Structure(depth, int(own["type"].get("pos")) - start, int(own["type"].get("show")),
                                    int(parameter.get("show")), int(own["len"].get("show")), tuple(values_of(child))))
        collect(child, depth + 1, start, structures, names)


def values_of(node):
    """What the dissector shows of a structure behind type, length and parameter."""
    sizes = {"int64": 64, "int64list": 64}
    for field in node:
        name = field.get("name").removeprefix("mqpcf.parm.")
        if name in ("type", "len", "id", "idNoVals") or not field.get("name").startswith("mqpcf."):
            continue
        if name in ("string", "stringlist", "bytestring"):
            yield bytes.fromhex(field.get("value") or "")
        else:
            yield int(field.get("show")) % 2 ** sizes.get(name, 32)


def as_the_dissector_goes(structures):
    """The structures in the order in which the dissector goes over them. It shows a group's members as they are, groups within
    it included. But behind a group it goes on after as many structures as the group counts, whatever depth they have: if
    there are groups among them that is inside the group, and not behind it."""
    def over(index, count, depth):
        for _ in range(count):
            seen = structures[index]
            yield Structure(depth, *list(vars(seen).values())[1:])
            members = seen.values[0] if seen.type == GROUP else 0
            yield from over(index + 1, members, depth + 1)
            index += 1 + members

    return list(over(0, sum(structure.depth == 1 for structure in structures), 1))


def main():
    name, message, listing, pdml = sys.argv[1:]
    header, structures = ours(pathlib.Path(message).read_bytes(), pathlib.Path(listing).read_text())
    their_header, theirs, names = dissected(pdml)
    if header != their_header:
        raise SystemExit(f"{name}: the headers differ: {header}, {their_header}")
    for parameter, known in NAMES.items():
        if known not in names.get(parameter, known):
            raise SystemExit(f"{name}: {parameter} is {names[parameter]}, not {known}")
    if theirs == structures:
        print(f"{name}: agrees, {len(structures)} structures")
        return
    same = next(i for i, pair in enumerate(zip(theirs + [None], structures + [None])) if pair[0] != pair[1])
    if theirs != as_the_dissector_goes(structures):
        raise SystemExit(f"{name}: differs at structure {same}:\n  ours   {structures[same:same + 1]}\n"
                         f"  theirs {theirs[same:same + 1]}")
    shown = {structure.place for structure in theirs}
    print(f"{name}: agrees up to byte {structures[same].place}, {same} of {len(structures)} structures; there the dissector "
          f"goes back to byte {theirs[same].place} and never shows {sum(s.place not in shown for s in structures)}")


main()
