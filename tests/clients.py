#!/usr/bin/env python3
"""Has clients of other makers work with the built program: open62541 (in C), and FreeOpcUa's python-opcua.

    tests/clients.py PROGRAM FOLDER

PROGRAM is the built uahist. FOLDER keeps two small systems of Debian in which the clients run, as Debian packages them: `trixie` with
open62541 1.4, `bullseye` with python-opcua 0.98. What isn't there is made by debootstrap, in some minutes and 700 MB. Needs root, debootstrap
and, to make them, Debian's mirror. A server over a store in a file serves the sample's plant, whose users are joined by one who only reads;
each client (tests/clients/) logs in, looks around, corrects and reads back. Each line that it prints has to be the wanted one.
"""
import os, shutil, socket, subprocess, sys, tempfile
import running, usage

usage.shown(__doc__, 2)
here = os.path.dirname(os.path.abspath(__file__))
program, systems = os.path.abspath(sys.argv[1]), os.path.abspath(sys.argv[2])
SYSTEMS = {"trixie": "libopen62541-1.4-dev,gcc,libc6-dev", "bullseye": "python3-opcua"}
READER = '\n[[user]]\nname = "eve"\npassword = "look-1"\naccess = "read"\n'
OPEN62541 = """
GetEndpoints: Good, 1
login of nobody: BadIdentityTokenRejected
login of ann: BadIdentityTokenRejected
login of ann: Good
NamespaceArray: Good
namespaces: 2
State: Good
CurrentTime: BadNodeIdUnknown
Browse: Good, Boiler Pump Weather Notes
AccessLevel: Good
UserAccessLevel: Good
levels: 0d, 0d
Historizing: Good
DataType: Good
DisplayName: Good
NodeClass: Good
latest value: BadWaitingForInitialData
insert: GoodEntryInserted
insert: GoodEntryInserted
insert: GoodEntryInserted
replace: GoodEntryReplaced
update: GoodEntryReplaced
insert where a value stands: BadEntryExists
delete: Good
raw: Good, 2 rows in 1 pages 81 at 01:00 82 at 02:00
raw, one value a page: Good, 2 rows in 2 pages 81 at 01:00 82 at 02:00
raw, the newest first: Good, 2 rows in 1 pages 82 at 02:00 81 at 01:00
modified: Good, 6 rows in 1 pages 70 by change 4 of ann 70 by change 1 of ann 71 by change 2 of ann 71 by change 1 of ann 72 by change 3 of ann 72 by change 1 of ann
modified, two a page: Good, 6 rows in 3 pages 70 by change 4 of ann 70 by change 1 of ann 71 by change 2 of ann 71 by change 1 of ann 72 by change 3 of ann 72 by change 1 of ann
insert of 1000 values: Good, 1000 inserted
insert of 1000 values: Good, 1000 inserted
insert of 500 values: Good, 500 inserted
raw, a thousand a page: Good, 2500 rows in 3 pages
a value of boiler.pressure: GoodEntryInserted, Good, the same
a value of boiler.burner: GoodEntryInserted, Good, the same
a value of boiler.hours: GoodEntryInserted, Good, the same
a value of boiler.serviced: GoodEntryInserted, Good, the same
a value of pump.speed: GoodEntryInserted, Good, the same
a value of pump.state: GoodEntryInserted, Good, the same
a value of pump.energy: GoodEntryInserted, Good, the same
a value of weather.outside: GoodEntryInserted, Good, the same
a value of notes: GoodEntryInserted, Good, the same
an array of pump.valves: GoodEntryInserted, Good, the same
an array of weather.forecast: GoodEntryInserted, Good, the same
a Double where a UInt32 is wanted: BadTypeMismatch
a channel renewed: Good
Write: BadServiceUnsupported
CreateSubscription: BadServiceUnsupported
login of eve: Good
insert of a reader: BadUserAccessDenied, 0 inserted
raw, by a reader: Good, 2 rows in 1 pages 81 at 01:00 82 at 02:00
the reader's end: Good
raw, once more: Good, 2 rows in 1 pages 81 at 01:00 82 at 02:00
the end: Good
"""
FREEOPCUA = """
endpoints: 1
namespaces: http://opcfoundation.org/UA/ urn:plant:heating
state: 0
objects: Boiler Pump Weather Notes
path: 0:Root/0:Objects/1:Boiler/1:Temperature
found by its path: BadServiceUnsupported
type: Int32
class: Variable
access: CurrentRead HistoryRead HistoryWrite
description: BadAttributeIdInvalid
raw: 81 at 01:00 82 at 02:00 0 at 00:00
raw, the newest first: 0 at 00:00 82 at 02:00 81 at 01:00
a value is written: BadServiceUnsupported
"""


def system(name):
    """A system of Debian with what a client needs, made where it isn't there."""
    place = os.path.join(systems, name)
    if not os.path.exists(os.path.join(place, "made")):
        shutil.rmtree(place, ignore_errors=True)
        print(f"making {place} ..", flush=True)
        subprocess.run(["debootstrap", "--variant=minbase", "--include=" + SYSTEMS[name], name, place, "http://deb.debian.org/debian"],
                       stdout=subprocess.DEVNULL, check=True)
        shutil.copy("/etc/hosts", os.path.join(place, "etc", "hosts"))
        open(os.path.join(place, "made"), "w").close()
    return place


def run_in(place, *words):
    """What a program of a system prints."""
    return subprocess.run(["chroot", place, *words], stdin=subprocess.DEVNULL, stdout=subprocess.PIPE, text=True, timeout=300).stdout


def compare(name, printed, wanted):
    """Whether a client printed the wanted lines; each other one is told."""
    found, lines = printed.strip().split("\n"), wanted.strip().split("\n")
    for number in range(max(len(found), len(lines))):
        is_, was = (side[number] if number < len(side) else "(nothing)" for side in (found, lines))
        if is_ != was:
            print(f"{name}: {is_}\n  wanted {was}")
    print(f"{name}: {len(found)} lines, {'all as wanted' if found == lines else 'some are others'}")
    return found == lines


for name in SYSTEMS:
    system(name)
folder = tempfile.mkdtemp()
port = running.free_port()
sample = open(os.path.join(here, "..", "crates", "uahist", "data", "plant.toml")).read()
settings = os.path.join(folder, "plant.toml")
with open(settings, "w") as file:
    file.write(sample.replace("replica = 1\n", f"replica = 1\nstore = '{folder}/plant.db'\n", 1)
               .replace("127.0.0.1:4840", f"127.0.0.1:{port}").replace("localhost:4840", f"127.0.0.1:{port}") + READER)
serving = subprocess.Popen([program, "serve", "--settings", settings], stdin=subprocess.DEVNULL)
fine = running.listens(port, serving)
try:
    address = f"opc.tcp://127.0.0.1:{port}"
    place = system("trixie")
    shutil.copy(os.path.join(here, "clients", "open62541.c"), os.path.join(place, "root"))
    subprocess.run(["chroot", place, "gcc", "-O1", "-o", "/root/open62541", "/root/open62541.c", "-lopen62541"], check=True)
    fine = compare("open62541", run_in(place, "/root/open62541", address), OPEN62541) and fine
    place = system("bullseye")
    shutil.copy(os.path.join(here, "clients", "freeopcua.py"), os.path.join(place, "root"))
    fine = compare("python-opcua", run_in(place, "python3", "/root/freeopcua.py", address), FREEOPCUA) and fine
    print("clients of two other makers: " + ("each is answered as it should be" if fine else "some answers are others"))
finally:
    serving.terminate()
    serving.wait()
    shutil.rmtree(folder)
sys.exit(0 if fine else 1)
