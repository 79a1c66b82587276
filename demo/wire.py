"""Calls of NFS version 2 on the wire (RFC 1094 2.2): the bytes of arguments, and a client over UDP."""

import socket
import struct
import time

UNSET = 0xFFFFFFFF
NUMBERS = {
    "getattr": 1, "setattr": 2, "lookup": 4, "readlink": 5, "read": 6, "write": 8, "create": 9, "remove": 10, "rename": 11,
    "link": 12, "symlink": 13, "mkdir": 14, "rmdir": 15, "readdir": 16, "statfs": 17,
}


def opaque(data):
    return struct.pack(">I", len(data)) + data + bytes(-len(data) % 4)


def handle_bytes(file):
    return struct.pack(">8I", 0x56374E32, 0, file[0], file[1], 0, 0, 0, 0)


def sattr_bytes(wanted):
    words = [UNSET if wanted[key] is None else wanted[key] for key in ("mode", "uid", "gid", "size")]
    for key in ("atime", "mtime"):
        words += [UNSET, UNSET] if wanted[key] is None else [wanted[key], 0]
    return struct.pack(">8I", *words)


def argument_bytes(kind, arguments):
    """The arguments on the wire: handles, names and texts, sattrs, and the numbers that are passed over."""
    if kind == "read":
        return handle_bytes(arguments[0]) + struct.pack(">3I", arguments[1], arguments[2], 0)
    if kind == "write":
        return handle_bytes(arguments[0]) + struct.pack(">3I", 0, arguments[1], 0) + opaque(arguments[2])
    parts = []
    for argument in arguments:
        if isinstance(argument, tuple):
            parts.append(handle_bytes(argument))
        elif isinstance(argument, bytes):
            parts.append(opaque(argument))
        elif isinstance(argument, dict):
            parts.append(sattr_bytes(argument))
        else:
            parts.append(struct.pack(">I", argument))
    return b"".join(parts)


class Client:
    """One call at a time; a reply is waited for five seconds."""

    def __init__(self, port):
        self.socket = socket.socket(socket.AF_INET, socket.SOCK_DGRAM)
        self.socket.connect(("127.0.0.1", port))
        self.socket.settimeout(5)
        self.xid = 0

    def send(self, cred, kind, arguments):
        self.xid += 1
        uid, gids = cred
        body = struct.pack(">5I", 0, 0, uid, gids[0], len(gids) - 1) + b"".join(struct.pack(">I", gid) for gid in gids[1:])
        head = struct.pack(">8I", self.xid, 0, 2, 100003, 2, NUMBERS[kind], 1, len(body)) + body + bytes(8)
        self.socket.send(head + argument_bytes(kind, arguments))

    def receive(self, kind):
        reply = self.socket.recv(9216)
        if reply[:24] != struct.pack(">6I", self.xid, 1, 0, 0, 0, 0):
            raise SystemExit(f"{kind}: not an accepted reply: {reply[:24].hex()}")
        return reply[24:]

    def call(self, cred, kind, arguments):
        before = int(time.time())
        self.send(cred, kind, arguments)
        reply = self.receive(kind)
        return reply, before, int(time.time())
