"""A client over FreeOpcUa's python-opcua, a library of another maker, at a uahist server: what it is answered, a line each.

The argument is the server's URL; tests/clients.py runs this, and knows what it has to print. The values that it reads were written by
tests/clients/open62541.c before. What python-opcua can't read of any server is left out: of modified values it begins by a type of update
that the standard doesn't have (`HistoryUpdateType(0)`).
"""
import datetime, sys
from opcua import Client, ua

url = sys.argv[1]
print("endpoints:", len(Client(url).connect_and_get_server_endpoints()))
client = Client(url)
client.set_user("ann")
client.set_password("boiler-7")
client.connect()


def told(name, asked):
    try:
        print(f"{name}: {asked()}")
    except ua.UaError as error:
        print(f"{name}: {type(error).__name__}")


def raw(*words):
    return " ".join(f"{one.Value.Value} at {one.SourceTimestamp:%H:%M}" for one in node.read_raw_history(*words) if one.Value.Value is not None)


node = client.get_node("ns=1;s=boiler.temperature")
begin, end = datetime.datetime(2026, 2, 28), datetime.datetime(2026, 3, 2)
told("namespaces", lambda: " ".join(client.get_namespace_array()))
told("state", client.get_node(ua.ObjectIds.Server_ServerStatus_State).get_value)
told("objects", lambda: " ".join(child.get_display_name().Text for child in client.get_objects_node().get_children()))
told("path", lambda: "/".join(node.get_path(as_string=True)))
told("found by its path", lambda: client.get_root_node().get_child(["0:Objects", "1:Boiler", "1:Temperature"]))
told("type", lambda: node.get_data_type_as_variant_type().name)
told("class", lambda: node.get_node_class().name)
told("access", lambda: " ".join(sorted(level.name for level in node.get_access_level())))
told("description", node.get_description)
told("raw", lambda: raw(begin, end))
told("raw, the newest first", lambda: raw(end, begin))
told("a value is written", lambda: node.set_value(5))
client.disconnect()
