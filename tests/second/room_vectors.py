"""The vectors of room: what crates/room_cases, which reads nothing, must write, from room.py."""

import room
from crate_files import store


def make(into):
    stdout = room.room_cases()
    store(into, "room_cases", None, stdout)
    print("calls %d" % stdout.count(b"\n"))
