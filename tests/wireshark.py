#!/usr/bin/env python3
"""Has Wireshark's OPC UA dissector read what the built program answers. It is made from the standard's own schema, and nothing here.

    tests/wireshark.py PROGRAM

PROGRAM is the built uahist. Needs tshark (Debian's package of that name). The plant's day of crates/uahist, and streams of each kind that
tests/streams.py makes, are answered by the program; both sides' bytes are written to a capture file, a chunk a TCP segment, and tshark reads
that. Each answer has to be one that the dissector knows, with nothing malformed in it, and where it is one chunk the fields have to reach
its last byte: no byte is left over, none was missed. Prints how many messages of each type there were.
"""
import collections, os, struct, subprocess, sys, tempfile
import xml.etree.ElementTree as xml
import usage

usage.shown(__doc__, 1)
here = os.path.dirname(os.path.abspath(__file__))
program = os.path.abspath(sys.argv[1])
uahist = os.path.join(here, "..", "crates", "uahist")
folder = tempfile.mkdtemp()
PORT, CLIENT, MOST = 4840, 50000, 60000


def chunks(data):
    """The chunks of a side, one after the other."""
    at = 0
    while at < len(data):
        size = int.from_bytes(data[at + 4:at + 8], "little")
        yield data[at:at + size]
        at += size


def answered(settings, stream):
    """What the program answers to a stream."""
    words = [program, "answer", "--now", "134168832000000000"] + (["--settings", settings] if settings else [])
    done = subprocess.run(words, input=stream, capture_output=True, check=True)
    return done.stdout


def capture(path, sides):
    """Writes a capture of both sides: pairs of who speaks, the client or not, and a chunk."""
    said = {True: 1, False: 1}
    with open(path, "wb") as file:
        file.write(struct.pack("<IHHiIII", 0xA1B2C3D4, 2, 4, 0, 0, 262144, 101))
        for moment, (client, data) in enumerate(sides):
            for at in range(0, len(data), MOST):
                piece = data[at:at + MOST]
                source, target = (CLIENT, PORT) if client else (PORT, CLIENT)
                tcp = struct.pack(">HHIIBBHHH", source, target, said[client], said[not client], 5 << 4, 0x18, 65535, 0, 0)
                ends = (bytes([10, 0, 0, 1]), bytes([10, 0, 0, 2]))
                address = ends if client else ends[::-1]
                ip = struct.pack(">BBHHHBBH4s4s", 0x45, 0, 40 + len(piece), 0, 0, 64, 6, 0, *address)
                whole = ip + tcp + piece
                file.write(struct.pack("<IIII", moment, at // MOST, len(whole), len(whole)) + whole)
                said[client] += len(piece)


def reaches(field):
    """The end of the last byte that a leaf below a field stands for."""
    inner = [reaches(child) for child in field if child.tag in ("field", "proto")]
    own = int(field.get("pos") or 0) + int(field.get("size") or 0)
    return max(inner) if inner else own


def read(path, counts):
    """Reads a capture by tshark, and counts the messages; says what is wrong with an answer."""
    words = ["tshark", "-r", path, "-d", f"tcp.port=={PORT},opcua", "-o", "tcp.check_checksum:FALSE", "-T", "pdml"]
    tree = xml.fromstring(subprocess.run(words, capture_output=True, check=True).stdout)
    wrong = []
    for number, packet in enumerate(tree.iter("packet"), 1):
        names = [proto.get("name") for proto in packet.iter() if proto.tag in ("proto", "field")]
        asked = packet.find(".//field[@name='tcp.srcport']").get("show") == str(CLIENT)
        if not asked and any("malformed" in (name or "") for name in names):
            wrong.append(f"{path}: packet {number} is malformed")
        for message in packet.findall("proto[@name='opcua']"):
            kind = message.find("field[@name='opcua.transport.type']").get("show")
            types = [field.get("showname") for field in message.iter("field") if field.get("name") == "opcua.servicenodeid.numeric"]
            told = types[0].split(": ", 1)[1] if types else kind
            if not asked and types and "Unknown" in told:
                wrong.append(f"{path}: packet {number} has {told}")
            letter = message.find("field[@name='opcua.transport.chunk']").get("show")
            counts[told if letter == "F" else "(a chunk of a longer message)"] += 1
            whole = int(message.get("pos")) + int(message.get("size"))
            split = any("fragment" in (name or "") or "reassembled" in (name or "") for name in names)
            if not asked and letter == "F" and not split and reaches(message) != whole:
                wrong.append(f"{path}: packet {number}, {told}: {whole - reaches(message)} bytes are in no field")
    return wrong


counts, wrong = collections.Counter(), []
day = b"".join(bytes.fromhex(line) for line in open(os.path.join(uahist, "stdin")))
streams = [("day", os.path.join(uahist, "data", "plant.toml"), day)]
for kind, count in (("unknown", 5), ("state", 5), ("chunks", 2), ("insert", 5), ("insert100", 3), ("update", 5)):
    made = subprocess.run([os.path.join(here, "streams.py"), kind, str(count)], capture_output=True, check=True).stdout
    streams.append((kind, os.path.join(here, "settings.toml") if kind in ("insert", "insert100", "update") else None, made))
for name, settings, stream in streams:
    path = os.path.join(folder, name + ".pcap")
    asked, told = list(chunks(stream)), list(chunks(answered(settings, stream)))
    capture(path, [(True, chunk) for chunk in asked] + [(False, chunk) for chunk in told])
    wrong += read(path, counts)
for told, count in sorted(counts.items()):
    print(f"{count:6} {told}")
print("\n".join(wrong) or "nothing is malformed, and no byte is in no field")
sys.exit(1 if wrong else 0)
