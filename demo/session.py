"""Random calls of NFS version 2 on one file, over UDP, each compared with a plain model of it (RFC 1094).

session.py PORT SEED CALLS MODEL: makes so many calls and keeps the model in that file; 0 calls compare the file with a kept model.
"""

import pickle
import random
import socket
import struct
import sys
import time

SECTOR = 512
LIMIT = 138 * SECTOR
FREE = 57  # blocks of the fresh volume that no file has
UNSET = 0xFFFFFFFF
GETATTR, SETATTR, READ, WRITE = 1, 2, 6, 8
FBIG, NOSPC = 27, 28
HANDLE = struct.pack(">8I", 0x56374E32, 0, 3, 1, 0, 0, 0, 0)
CREDENTIAL = struct.pack(">10I", 1, 24, 0, 1, 0x63000000, 100, 100, 0, 0, 0)


class Model:
    """The file: 1,024 bytes `a`, of user 100."""

    def __init__(self):
        self.body = bytearray(b"a" * 1024)
        self.held = {0, 1}
        self.mode = 0o644
        self.atime = self.mtime = self.ctime = 1000

    def blocks(self, held):
        """How many blocks these sectors take: one more holds the addresses from the tenth on."""
        return len(held) + any(index >= 10 for index in held)

    def write(self, now, offset, data):
        end = offset + len(data)
        if end > LIMIT:
            return FBIG
        touched = set(range(offset // SECTOR, (end + SECTOR - 1) // SECTOR)) if data else set()
        held = self.held | touched
        if self.blocks(held) - 2 > FREE:
            return NOSPC
        self.held = held
        if data:
            self.body.extend(bytes(max(0, end - len(self.body))))
            self.body[offset:end] = data
        self.mtime = self.ctime = now
        return 0

    def set(self, now, mode, size, mtime):
        if size is not None and size > LIMIT:
            return FBIG
        if mode is not None:
            self.mode = mode
        if size is not None:
            if size < len(self.body):
                del self.body[size:]
                self.held = {index for index in self.held if index * SECTOR < size}
            self.body.extend(bytes(size - len(self.body)))
            self.mtime = now
        if mtime is not None:
            self.mtime = mtime
        self.ctime = now
        return 0

    def attributes(self):
        size = len(self.body)
        return struct.pack(
            ">17I", 1, 0o100000 | self.mode, 1, 100, 100, size, SECTOR, 0, (size + SECTOR - 1) // SECTOR, 0, 3,
            self.atime, 0, self.mtime, 0, self.ctime, 0,
        )


class Client:
    """One call at a time; a reply is waited for five seconds."""

    def __init__(self, port):
        self.socket = socket.socket(socket.AF_INET, socket.SOCK_DGRAM)
        self.socket.connect(("127.0.0.1", port))
        self.socket.settimeout(5)
        self.xid = 0

    def call(self, procedure, arguments):
        self.xid += 1
        head = struct.pack(">6I", self.xid, 0, 2, 100003, 2, procedure)
        before = int(time.time())
        self.socket.send(head + CREDENTIAL + HANDLE + arguments)
        reply = self.socket.recv(9216)
        after = int(time.time())
        if reply[:24] != struct.pack(">6I", self.xid, 1, 0, 0, 0, 0):
            raise SystemExit(f"procedure {procedure}: not an accepted reply: {reply[:24].hex()}")
        return reply[24:], before, after


def second_in(reply, before, after):
    """The second of a change, from the reply's ctime, which has to be the clock's: a server asks its clock, and then waits for a call."""
    if reply[:4] != bytes(4):
        return after
    (second,) = struct.unpack_from(">I", reply, 4 + 15 * 4)
    if not before - 1 <= second <= after:
        raise SystemExit(f"the second {second} isn't the clock's, {before} to {after}")
    return second


def expect(what, reply, status, result):
    wanted = struct.pack(">I", status) + (result if status == 0 else b"")
    if reply != wanted:
        raise SystemExit(f"{what}:\n  came   {reply.hex()[:400]}\n  wanted {wanted.hex()[:400]}")


def write(client, model, chance):
    offset = chance.choice([chance.randrange(0, LIMIT + 600), chance.randrange(0, 6000), len(model.body)])
    data = chance.randbytes(chance.choice([0, 1, 2, 511, 512, 513, chance.randrange(1, 8193)]))
    padded = data + bytes(-len(data) % 4)
    reply, before, after = client.call(WRITE, struct.pack(">4I", 0, offset, 0, len(data)) + padded)
    status = model.write(second_in(reply, before, after), offset, data)
    expect(f"WRITE of {len(data)} at {offset}", reply, status, model.attributes())


def set_attributes(client, model, chance):
    size = chance.choice([None, None, 0, chance.randrange(0, LIMIT + 50), chance.randrange(0, len(model.body) + 1)])
    mode = chance.choice([None, 0o600, 0o644])
    mtime = chance.choice([None, None, 5000])
    words = [UNSET if word is None else word for word in (mode, None, None, size, None, None, mtime, None)]
    if mtime is not None:
        words[7] = 0
    reply, before, after = client.call(SETATTR, struct.pack(">8I", *words))
    status = model.set(second_in(reply, before, after), mode, size, mtime)
    expect(f"SETATTR of mode {mode}, size {size}, mtime {mtime}", reply, status, model.attributes())


def read(client, model, offset, count):
    reply, _, _ = client.call(READ, struct.pack(">3I", offset, count, 0))
    data = bytes(model.body[offset : offset + min(count, 8192)])
    expect(f"READ of {count} at {offset}", reply, 0, model.attributes() + struct.pack(">I", len(data)) + data + bytes(-len(data) % 4))


def read_all(client, model):
    for offset in range(0, len(model.body) + 1, 8192):
        read(client, model, offset, 8192)


def main(port, seed, calls, kept):
    client, chance, model = Client(port), random.Random(seed), Model()
    if calls == 0:
        with open(kept, "rb") as file:
            model = pickle.load(file)
    for _ in range(calls):
        kind = chance.randrange(10)
        if kind < 5:
            write(client, model, chance)
        elif kind < 7:
            set_attributes(client, model, chance)
        elif kind < 9:
            read(client, model, chance.randrange(0, len(model.body) + 600), chance.choice([1, 512, 4096, 8192, 9000]))
        else:
            reply, _, _ = client.call(GETATTR, b"")
            expect("GETATTR", reply, 0, model.attributes())
    read_all(client, model)
    with open(kept, "wb") as file:
        pickle.dump(model, file)


main(int(sys.argv[1]), int(sys.argv[2]), int(sys.argv[3]), sys.argv[4])
