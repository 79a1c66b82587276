"""Random calls of NFS version 2 on a tree of files, over UDP, each compared with the plain model (RFC 1094 2.2).

tree.py PORT SEED CALLS MODEL INODES BLOCKS [KIND ..]: makes so many calls of these kinds, all if none is named, on a volume with so many inodes and
data blocks that has the root alone, made at second 1000, and keeps the model in that file. 0 calls compare the volume with a kept model. The kind
`crowd` is a LINK by a new name in the directory that has the most slots.
"""

import pickle
import random
import struct
import sys

from model import DIRECTORY, LIMIT, LINK, REGULAR, Model, answer
from wire import NUMBERS, Client

ROOT_USER = (0, (0,))
ALL = [REGULAR, DIRECTORY, LINK]
WITHOUT_ATTRIBUTES = ["remove", "rename", "link", "symlink", "rmdir"]


# ---- one call


def check(client, model, kind, cred, arguments):
    """Makes the call. The second of a change is one of those in which it was under way, or the one before: a server asks its clock, and then waits
    for a call."""
    reply, before, after = client.call(cred, kind, arguments)
    wanted = b""
    for now in range(before - 1, after + 1):
        wanted, trial = answer(model, kind, now, cred, arguments)
        if reply == wanted and agrees(client, trial, kind, arguments):
            return trial
    raise SystemExit(f"{kind} {cred} {arguments}:\n  came   {reply.hex()[:400]}\n  wanted {wanted.hex()[:400]}")


def agrees(client, model, kind, arguments):
    """A reply without attributes doesn't tell its second; the directories that the call may have changed do."""
    if kind not in WITHOUT_ATTRIBUTES + ["mkdir", "create"]:
        return True
    for file in (argument for argument in arguments if isinstance(argument, tuple)):
        reply, _, _ = client.call(ROOT_USER, "getattr", [file])
        if reply != answer(model, "getattr", 0, ROOT_USER, [file])[0]:
            return False
    return True


# ---- the whole volume


def walk(client, model, file, count):
    """The whole directory, each call from the cookie on that the last entry of the one before had."""
    node, cookie = model.nodes[file[0]], 0
    while True:
        check(client, model, "readdir", ROOT_USER, [file, cookie, count])
        reply, _ = answer(model, "readdir", 0, ROOT_USER, [file, cookie, count])
        if reply[-4:] == struct.pack(">I", 1):
            return
        (cookie,) = struct.unpack(">I", reply[-12:-8])


def compare(client, model, kinds, names=()):
    """All files and directories, by the calls of these kinds that only look, and these names in each directory."""
    for ino, node in model.nodes.items():
        file = (ino, model.generation(ino))
        check(client, model, "getattr", ROOT_USER, [file])
        if node.kind == REGULAR and "read" in kinds:
            for offset in range(0, node.size + 1, 8192):
                check(client, model, "read", ROOT_USER, [file, offset, 8192])
        if node.kind == DIRECTORY and "lookup" in kinds:
            standing = [slot[1] for slot in node.slots if slot is not None]
            for name in standing + NAMES + list(names):
                check(client, model, "lookup", ROOT_USER, [file, name])
        if node.kind == DIRECTORY and "readdir" in kinds:
            for count in (512, 8192):
                walk(client, model, file, count)
        if node.kind == LINK and "readlink" in kinds:
            check(client, model, "readlink", ROOT_USER, [file])
    if "statfs" in kinds:
        check(client, model, "statfs", ROOT_USER, [(2, model.generation(2))])


def summary(model):
    kinds = [node.kind for node in model.nodes.values()]
    return f"files {kinds.count(REGULAR)} directories {kinds.count(DIRECTORY)} links {kinds.count(LINK)} free {model.free()}"


# ---- random calls

NAMES = [b"a", b"b", b"c", b"data", b"longer", b"fourteen bytes", b"fifteen bytes..", b"", b".", b"..", b"x/y", b"e" * 9]


def wanted_attributes(chance):
    pick = chance.choice
    return {
        "mode": pick([None, 0o644, 0o600, 0o100755, 0o777, 0o040755]),
        "uid": pick([None, None, None, 100, 200, 70000]),
        "gid": pick([None, None, None, 100, 300]),
        "size": pick([None, None, None, 0, 700, 5632, chance.randrange(LIMIT + 100)]),
        "atime": pick([None, None, 5000]),
        "mtime": pick([None, None, 6000]),
    }


class Chooser:
    def __init__(self, seed, kinds):
        self.chance, self.kinds = random.Random(seed), kinds
        self.seed, self.serial = seed % 1000, 0

    def file(self, model, kinds):
        """A handle, mostly of a node of these kinds; now and then a stale one."""
        if self.chance.randrange(12) == 0:
            ino = self.chance.randrange(0, model.inodes + 3)
            return ino, self.chance.choice([0, 1, model.generation(ino)])
        here = [ino for ino, node in model.nodes.items() if node.kind in kinds] or list(model.nodes)
        if self.chance.randrange(8) == 0:
            here = list(model.nodes)
        ino = self.chance.choice(here)
        return ino, model.generation(ino)

    def serial_name(self):
        self.serial += 1
        return b"f%d.%d" % (self.seed, self.serial)

    def name(self, model, directory, kinds):
        """Mostly one that a node of these kinds has in the directory, else one that few or none have."""
        node = model.nodes.get(directory[0])
        slots = [slot for slot in node.slots[2:] if slot is not None] if node is not None else []
        standing = [slot[1] for slot in slots if model.nodes[slot[0]].kind in kinds]
        pick = self.chance.randrange(8)
        if pick < 6 and standing:
            return self.chance.choice(standing)
        return self.serial_name() if pick == 6 else self.chance.choice(NAMES)

    def new_name(self, model, directory):
        """Mostly one that isn't there."""
        pick = self.chance.randrange(8)
        return self.serial_name() if pick < 5 else self.name(model, directory, ALL)

    def crowded(self, model):
        ino = max((ino for ino, node in model.nodes.items() if node.kind == DIRECTORY), key=lambda ino: len(model.nodes[ino].slots))
        return ino, model.generation(ino)

    def arguments(self, model, kind):
        chance, directory = self.chance, self.file(model, [DIRECTORY])
        if kind in ("getattr", "statfs"):
            return [self.file(model, ALL)]
        if kind == "setattr":
            return [self.file(model, ALL), wanted_attributes(chance)]
        if kind == "readlink":
            return [self.file(model, [LINK])]
        if kind == "read":
            return [self.file(model, [REGULAR]), chance.randrange(LIMIT), chance.choice([1, 512, 8192, 9000])]
        if kind == "write":
            offset = chance.choice([chance.randrange(6000), chance.randrange(LIMIT + 600)])
            return [self.file(model, [REGULAR]), offset, chance.randbytes(chance.choice([0, 1, 513, chance.randrange(1, 8193)]))]
        if kind == "readdir":
            return [directory, chance.choice([0, 0, chance.randrange(80), 0xFFFFFFFF]), chance.choice([0, 40, 512, 8192, 9000])]
        if kind == "rename":
            other = chance.choice([directory, self.file(model, [DIRECTORY])])
            new_name = chance.choice([self.new_name(model, other), self.name(model, other, ALL)])
            return [directory, self.name(model, directory, ALL), other, new_name]
        if kind == "link":
            return [self.file(model, [REGULAR, LINK]), directory, self.new_name(model, directory)]
        if kind == "symlink":
            text = chance.randbytes(chance.choice([0, 1, 20, 600, 1024]))
            return [directory, self.new_name(model, directory), text, wanted_attributes(chance)]
        if kind in ("create", "mkdir"):
            return [directory, self.new_name(model, directory), wanted_attributes(chance)]
        if kind == "rmdir":
            return [directory, self.name(model, directory, [DIRECTORY])]
        if kind == "remove":
            return [directory, self.name(model, directory, [REGULAR, LINK])]
        return [directory, self.name(model, directory, ALL)]

    def next(self, model):
        kind = self.chance.choice(self.kinds)
        if kind == "crowd":
            return "link", ROOT_USER, [self.file(model, [REGULAR, LINK]), self.crowded(model), self.serial_name()]
        cred = self.chance.choice([ROOT_USER, ROOT_USER, (100, (100, 300)), (200, (200,))])
        return kind, cred, self.arguments(model, kind)


def main(port, seed, calls, kept, inodes, blocks, kinds):
    client, model, chooser = Client(port), Model(inodes, blocks), Chooser(seed, kinds)
    if calls == 0:
        with open(kept, "rb") as file:
            model = pickle.load(file)
    for _ in range(calls):
        kind, cred, arguments = chooser.next(model)
        model = check(client, model, kind, cred, arguments)
    compare(client, model, kinds)
    print(summary(model))
    with open(kept, "wb") as file:
        pickle.dump(model, file)


if __name__ == "__main__":
    main(int(sys.argv[1]), int(sys.argv[2]), int(sys.argv[3]), sys.argv[4], int(sys.argv[5]), int(sys.argv[6]), sys.argv[7:] or list(NUMBERS))
