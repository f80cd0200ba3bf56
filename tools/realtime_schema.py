"""The fields of GTFS Realtime that tools/realtime reads, as classes of the protobuf library.

The names and numbers of messages and fields are those of the public gtfs-realtime.proto;
only the fields that are read, or whose presence is told, stand here. Three kinds differ
from that file, and are the same bytes: a string is read as bytes, so that text which is
no UTF-8 is found field by field; an enum as int32, so that a value which is not known
here is seen and not taken for the default; and a message that is not looked into as
bytes. No field is required; tools/realtime looks for those that it needs.
"""

import os
import sys

# Debian's protobuf library is one of Debian's Python, which need not be the one that is found first.
SYSTEM_PYTHON = "/usr/bin/python3"
PACKAGE = "transit_realtime"
MESSAGES = {
    "FeedMessage": {"header": (1, "FeedHeader"), "entity": (2, ["FeedEntity"])},
    "FeedHeader": {"gtfs_realtime_version": (1, "bytes"), "incrementality": (2, "int32"), "timestamp": (3, "uint64")},
    "FeedEntity": {
        "id": (1, "bytes"), "is_deleted": (2, "bool"), "trip_update": (3, "TripUpdate"), "vehicle": (4, "bytes"),
        "alert": (5, "bytes"), "shape": (6, "bytes"), "stop": (7, "bytes"), "trip_modifications": (8, "bytes"),
    },
    "TripUpdate": {
        "trip": (1, "TripDescriptor"), "stop_time_update": (2, ["StopTimeUpdate"]), "timestamp": (4, "uint64"),
        "delay": (5, "int32"),
    },
    "TripDescriptor": {
        "trip_id": (1, "bytes"), "start_time": (2, "bytes"), "start_date": (3, "bytes"),
        "schedule_relationship": (4, "int32"), "route_id": (5, "bytes"),
    },
    "StopTimeUpdate": {
        "stop_sequence": (1, "uint32"), "arrival": (2, "StopTimeEvent"), "departure": (3, "StopTimeEvent"),
        "stop_id": (4, "bytes"), "schedule_relationship": (5, "int32"),
        "stop_time_properties": (6, "StopTimeProperties"),
    },
    "StopTimeEvent": {"delay": (1, "int32"), "time": (2, "int64"), "scheduled_time": (4, "int64")},
    "StopTimeProperties": {"assigned_stop_id": (1, "bytes")},
}  # fmt: skip
# FeedHeader.incrementality.
FULL_DATASET, DIFFERENTIAL = 0, 1
# TripDescriptor.schedule_relationship.
TRIP_SCHEDULED, ADDED, TRIP_UNSCHEDULED, CANCELED, REPLACEMENT, DUPLICATED, DELETED, NEW = 0, 1, 2, 3, 5, 6, 7, 8
# StopTimeUpdate.schedule_relationship.
SCHEDULED, SKIPPED, NO_DATA, UNSCHEDULED = 0, 1, 2, 3


def has_library():
    """Whether this Python has the protobuf library. Where the system's Python has it instead, that one takes over."""
    try:
        import google.protobuf  # noqa: F401
    except ImportError:
        if os.path.exists(SYSTEM_PYTHON) and "TRAIND_SYSTEM_PYTHON" not in os.environ:
            sys.stdout.flush()
            os.environ["TRAIND_SYSTEM_PYTHON"] = "1"
            os.execv(SYSTEM_PYTHON, [SYSTEM_PYTHON, *sys.argv])
        return False
    return True


def message_class(name="FeedMessage"):
    """The class of a message."""
    from google.protobuf import descriptor_pb2, descriptor_pool, message_factory

    file = descriptor_pb2.FileDescriptorProto(name="traind_realtime.proto", package=PACKAGE, syntax="proto2")
    field_type = descriptor_pb2.FieldDescriptorProto
    for message_name, fields in MESSAGES.items():
        message = file.message_type.add(name=message_name)
        for field_name, (number, kind) in fields.items():
            repeated = isinstance(kind, list)
            kind = kind[0] if repeated else kind
            field = message.field.add(name=field_name, number=number)
            field.label = field_type.LABEL_REPEATED if repeated else field_type.LABEL_OPTIONAL
            if kind in MESSAGES:
                field.type, field.type_name = field_type.TYPE_MESSAGE, f".{PACKAGE}.{kind}"
            else:
                field.type = field_type.Type.Value(f"TYPE_{kind.upper()}")
    pool = descriptor_pool.DescriptorPool()
    pool.AddSerializedFile(file.SerializeToString())
    found = pool.FindMessageTypeByName(f"{PACKAGE}.{name}")
    if hasattr(message_factory, "GetMessageClass"):
        return message_factory.GetMessageClass(found)
    return message_factory.MessageFactory(pool).GetPrototype(found)
