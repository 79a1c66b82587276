"""A plain model of a volume: what each call of NFS version 2 answers, and what the files are after it (docs/CALLS.md)."""

import pickle
import struct

from wire import UNSET, handle_bytes, opaque

SECTOR, LIMIT, MOST_LINKS, MOST_NAME = 512, 138 * 512, 32767, 14
REGULAR, DIRECTORY, LINK = 1, 2, 5
TYPE_BITS = {REGULAR: 0o100000, DIRECTORY: 0o040000, LINK: 0o120000}
READ, WRITE, SEARCH = "read", "write", "search"
OK, PERM, NOENT, NXIO, ACCES, EXIST, NOTDIR, ISDIR = 0, 1, 2, 6, 13, 17, 20, 21
FBIG, NOSPC, NAMETOOLONG, NOTEMPTY, STALE = 27, 28, 63, 66, 70


class Refused(Exception):
    """A call that is answered by a status, and changes nothing."""


def refuse(test, status):
    if test:
        raise Refused(status)


def sectors_of(size):
    return (size + SECTOR - 1) // SECTOR


class Node:
    def __init__(self, kind, mode, uid, gid, now, size=0):
        self.kind, self.mode, self.uid, self.gid, self.size = kind, mode, uid, gid, size
        self.atime = self.mtime = self.ctime = now
        self.held, self.slots = {}, []

    def usage(self):
        held = range(sectors_of(self.size)) if self.kind == DIRECTORY else self.held
        return len(held) + any(index >= 10 for index in held)

    def body(self):
        whole = bytearray(sectors_of(self.size) * SECTOR)
        for index, data in self.held.items():
            whole[index * SECTOR : (index + 1) * SECTOR] = data
        return bytes(whole[: self.size])

    def splice(self, offset, data):
        """Writes bytes: each touched sector is held from then on."""
        end = offset + len(data)
        for index in range(offset // SECTOR, sectors_of(end)) if data else ():
            sector = bytearray(self.held.get(index, bytes(SECTOR)))
            first = max(offset, index * SECTOR)
            last = min(end, (index + 1) * SECTOR)
            sector[first - index * SECTOR : last - index * SECTOR] = data[first - offset : last - offset]
            self.held[index] = bytes(sector)
        if data:
            self.size = max(self.size, end)

    def resize(self, size):
        kept = {index: data for index, data in self.held.items() if index < sectors_of(size)}
        if size % SECTOR and size // SECTOR in kept:
            kept[size // SECTOR] = kept[size // SECTOR][: size % SECTOR].ljust(SECTOR, b"\0")
        self.held, self.size = kept, size

    def copy(self):
        other = Node(self.kind, self.mode, self.uid, self.gid, 0, self.size)
        other.atime, other.mtime, other.ctime = self.atime, self.mtime, self.ctime
        other.held, other.slots = dict(self.held), list(self.slots)
        return other


def may(cred, node, want):
    uid, gids = cred
    if uid == 0:
        return True
    if node.kind == REGULAR and uid == node.uid and want != SEARCH:
        return True
    bits = node.mode >> (6 if uid == node.uid else 3 if node.gid in gids else 0) & 7
    if want == READ:
        return bool(bits & 4) or (node.kind == REGULAR and bool(bits & 1))
    return bool(bits & (2 if want == WRITE else 1))


def named_badly(name):
    return not name or b"\0" in name or b"/" in name


class Model:
    """The files of a volume that has the root alone at first, made at second 1000."""

    def __init__(self, inodes, blocks):
        self.inodes, self.blocks = inodes, blocks
        root = Node(DIRECTORY, 0o755, 0, 0, 1000, 32)
        root.slots = [(2, b"."), (2, b"..")]
        self.nodes, self.generations = {2: root}, {2: 1}

    def generation(self, ino):
        return self.generations.get(ino, 0)

    def free(self):
        return self.blocks - sum(node.usage() for node in self.nodes.values())

    def links(self, ino):
        return sum(slot is not None and slot[0] == ino for node in self.nodes.values() for slot in node.slots)

    # ---- what replies are made of

    def attributes(self, ino):
        node = self.nodes[ino]
        return struct.pack(
            ">17I", node.kind, TYPE_BITS[node.kind] | node.mode, self.links(ino), node.uid, node.gid, node.size, SECTOR, 0,
            sectors_of(node.size), 0, ino, node.atime, 0, node.mtime, 0, node.ctime, 0,
        )

    def handle(self, ino):
        return handle_bytes((ino, self.generation(ino)))

    # ---- what calls share

    def live(self, file):
        ino, generation = file
        refuse(ino not in self.nodes or self.generation(ino) != generation, STALE)
        return ino, self.nodes[ino]

    def directory(self, file):
        ino, node = self.live(file)
        refuse(node.kind != DIRECTORY, NOTDIR)
        return ino, node

    def slot_of(self, node, name):
        for index, slot in enumerate(node.slots):
            if slot is not None and slot[1] == name:
                return index
        return None

    def test_name(self, name):
        refuse(named_badly(name) or name in (b".", b".."), ACCES)
        refuse(len(name) > MOST_NAME, NAMETOOLONG)

    def found(self, node, name):
        index = self.slot_of(node, name)
        refuse(index is None, NOENT)
        return index, node.slots[index][0]

    def test_change(self, cred, node):
        refuse(not (may(cred, node, WRITE) and may(cred, node, SEARCH)), ACCES)

    def longer(self, node):
        """A directory with room for one entry more, and the place of it."""
        after = node.copy()
        if None in after.slots:
            return after, after.slots.index(None)
        after.slots.append(None)
        after.size += 16
        return after, len(after.slots) - 1

    def test_entry(self, cred, node, size=0):
        self.test_change(cred, node)
        refuse(size > LIMIT or self.longer(node)[0].size > LIMIT, FBIG)

    def usable(self):
        for ino in range(3, self.inodes + 1):
            if ino not in self.nodes and self.generation(ino) < UNSET:
                return ino
        raise Refused(NOSPC)

    def add_entry(self, ino, entry, now):
        node, index = self.longer(self.nodes[ino])
        node.slots[index] = entry
        node.mtime = node.ctime = now
        self.nodes[ino] = node

    def empty(self, ino, index, now):
        node = self.nodes[ino]
        node.slots[index] = None
        node.mtime = node.ctime = now

    def unlink(self, ino, now):
        """A name of the node was taken away before."""
        if self.links(ino) == 0:
            del self.nodes[ino]
        else:
            self.nodes[ino].ctime = now

    def test_space(self, added):
        refuse(added > self.free(), NOSPC)

    def make(self, parent, name, node, now):
        ino = self.usable()
        self.test_space(node.usage() + self.longer(self.nodes[parent])[0].usage() - self.nodes[parent].usage())
        self.generations[ino] = self.generation(ino) + 1
        self.nodes[ino] = node
        self.add_entry(parent, (ino, name), now)
        return ino

    def new_node(self, kind, wanted, cred, now, usual):
        mode, uid, gid = wanted["mode"], wanted["uid"], wanted["gid"]
        owner = cred[0] if uid is None or cred[0] != 0 else own_id(uid)
        group = cred[1][0] if gid is None or cred[0] != 0 else own_id(gid)
        return Node(kind, (usual if mode is None else mode) & 0o7777, owner, group, now)

    # ---- the calls

    def getattr(self, now, cred, file):
        ino, _ = self.live(file)
        return self.attributes(ino)

    def setattr(self, now, cred, file, wanted):
        ino, node = self.live(file)
        mode, uid, gid, size = wanted["mode"], wanted["uid"], wanted["gid"], wanted["size"]
        owns = cred[0] in (0, node.uid)
        refuse(size is not None and node.kind == DIRECTORY, ISDIR)
        refuse(size is not None and node.kind == LINK, NXIO)
        refuse((mode, wanted["atime"], wanted["mtime"]) != (None, None, None) and not owns, PERM)
        refuse(uid is not None and own_id(uid) != node.uid and cred[0] != 0, PERM)
        refuse(gid is not None and own_id(gid) != node.gid and not (cred[0] == 0 or (owns and own_id(gid) in cred[1])), PERM)
        refuse(size is not None and not may(cred, node, WRITE), ACCES)
        refuse(size is not None and size > LIMIT, FBIG)
        if mode is not None:
            node.mode = mode & 0o7777
        if uid is not None:
            node.uid = own_id(uid)
        if gid is not None:
            node.gid = own_id(gid)
        if size is not None:
            node.resize(size)
            node.mtime = now
        if wanted["atime"] is not None:
            node.atime = wanted["atime"]
        if wanted["mtime"] is not None:
            node.mtime = wanted["mtime"]
        node.ctime = now
        return self.attributes(ino)

    def lookup(self, now, cred, file, name):
        _, node = self.directory(file)
        refuse(named_badly(name), ACCES)
        refuse(len(name) > MOST_NAME, NAMETOOLONG)
        _, ino = self.found(node, name)
        refuse(not may(cred, node, SEARCH), ACCES)
        return self.handle(ino) + self.attributes(ino)

    def readlink(self, now, cred, file):
        _, node = self.live(file)
        refuse(node.kind != LINK, NXIO)
        return opaque(node.body())

    def read(self, now, cred, file, offset, count):
        ino, node = self.live(file)
        refuse(node.kind == DIRECTORY, ISDIR)
        refuse(node.kind == LINK, NXIO)
        refuse(not may(cred, node, READ), ACCES)
        return self.attributes(ino) + opaque(node.body()[offset : offset + min(count, 8192)])

    def write(self, now, cred, file, offset, data):
        ino, node = self.live(file)
        refuse(node.kind == DIRECTORY, ISDIR)
        refuse(node.kind == LINK, NXIO)
        refuse(not may(cred, node, WRITE), ACCES)
        refuse(offset + len(data) > LIMIT, FBIG)
        after = node.copy()
        after.splice(offset, data)
        self.test_space(after.usage() - node.usage())
        after.mtime = after.ctime = now
        self.nodes[ino] = after
        return self.attributes(ino)

    def create(self, now, cred, file, name, wanted):
        parent, node = self.directory(file)
        self.test_name(name)
        refuse(wanted["mode"] is not None and wanted["mode"] & 0o170000 not in (0, 0o100000), PERM)
        index = self.slot_of(node, name)
        if index is None:
            self.test_entry(cred, node, wanted["size"] or 0)
            new = self.new_node(REGULAR, wanted, cred, now, 0o666)
            new.size = wanted["size"] or 0
            ino = self.make(parent, name, new, now)
            return self.handle(ino) + self.attributes(ino)
        ino = node.slots[index][0]
        there = self.nodes[ino]
        refuse(there.kind != REGULAR, EXIST)
        refuse(wanted["size"] is not None and not may(cred, there, WRITE), ACCES)
        refuse((wanted["size"] or 0) > LIMIT, FBIG)
        if wanted["size"] is not None:
            there.resize(wanted["size"])
            there.mtime = there.ctime = now
        return self.handle(ino) + self.attributes(ino)

    def remove(self, now, cred, file, name):
        parent, node = self.directory(file)
        self.test_name(name)
        index, ino = self.found(node, name)
        refuse(self.nodes[ino].kind == DIRECTORY, ISDIR)
        self.test_change(cred, node)
        self.empty(parent, index, now)
        self.unlink(ino, now)
        return b""

    def rename(self, now, cred, file, name, other, new_name):
        old, new = self.live(file)[0], self.live(other)[0]
        refuse(self.nodes[old].kind != DIRECTORY or self.nodes[new].kind != DIRECTORY, NOTDIR)
        self.test_name(name)
        self.test_name(new_name)
        index, ino = self.found(self.nodes[old], name)
        place = self.slot_of(self.nodes[new], new_name)
        there = None if place is None else self.nodes[new].slots[place][0]
        if there == ino:
            return b""
        moved = self.nodes[ino]
        refuse(moved.kind == DIRECTORY and there is not None, EXIST)
        refuse(moved.kind == DIRECTORY and old != new, PERM)
        refuse(there is not None and self.nodes[there].kind == DIRECTORY, ISDIR)
        self.test_change(cred, self.nodes[old])
        self.test_change(cred, self.nodes[new])
        if old == new and there is None:
            self.nodes[old].slots[index] = (ino, new_name)
            self.nodes[old].mtime = self.nodes[old].ctime = now
            return b""
        after = self.nodes[new] if there is not None else self.longer(self.nodes[new])[0]
        refuse(after.size > LIMIT, FBIG)
        refuse(self.links(ino) == 65535, NOSPC)
        self.test_space(after.usage() - self.nodes[new].usage())
        if there is None:
            self.add_entry(new, (ino, new_name), now)
        else:
            self.nodes[new].slots[place] = (ino, new_name)
            self.nodes[new].mtime = self.nodes[new].ctime = now
        self.empty(old, index, now)
        if there is not None:
            self.unlink(there, now)
        return b""

    def link(self, now, cred, file, other, name):
        ino, node = self.live(file)
        parent, directory = self.live(other)
        refuse(node.kind == DIRECTORY, ISDIR)
        refuse(directory.kind != DIRECTORY, NOTDIR)
        self.test_name(name)
        refuse(self.slot_of(directory, name) is not None, EXIST)
        self.test_entry(cred, directory)
        refuse(self.links(ino) >= MOST_LINKS, NOSPC)
        self.test_space(self.longer(directory)[0].usage() - directory.usage())
        self.add_entry(parent, (ino, name), now)
        node.ctime = now
        return b""

    def symlink(self, now, cred, file, name, text, wanted):
        parent, node = self.directory(file)
        self.test_name(name)
        refuse(self.slot_of(node, name) is not None, EXIST)
        self.test_entry(cred, node)
        new = self.new_node(LINK, wanted, cred, now, 0)
        new.mode = 0o777
        new.splice(0, text)
        self.make(parent, name, new, now)
        return b""

    def mkdir(self, now, cred, file, name, wanted):
        parent, node = self.directory(file)
        self.test_name(name)
        refuse(self.slot_of(node, name) is not None, EXIST)
        self.test_entry(cred, node)
        new = self.new_node(DIRECTORY, wanted, cred, now, 0o777)
        new.size = 32
        ino = self.usable()
        refuse(self.links(parent) >= MOST_LINKS, NOSPC)
        new.slots = [(ino, b"."), (parent, b"..")]
        self.make(parent, name, new, now)
        return self.handle(ino) + self.attributes(ino)

    def rmdir(self, now, cred, file, name):
        parent, node = self.directory(file)
        self.test_name(name)
        index, ino = self.found(node, name)
        refuse(self.nodes[ino].kind != DIRECTORY, NOTDIR)
        refuse(any(slot is not None for slot in self.nodes[ino].slots[2:]), NOTEMPTY)
        self.test_change(cred, node)
        self.empty(parent, index, now)
        del self.nodes[ino]
        return b""

    def readdir(self, now, cred, file, cookie, count):
        _, node = self.directory(file)
        refuse(not may(cred, node, READ), ACCES)
        left = [(index, slot) for index, slot in enumerate(node.slots) if index >= cookie and slot is not None]
        result, size = b"", 12
        while left:
            index, (ino, name) = left[0]
            entry = struct.pack(">2I", 1, ino) + opaque(name) + struct.pack(">I", index + 1)
            if result and size + len(entry) > min(count, 8192):
                break
            result += entry
            size += len(entry)
            del left[0]
        return result + struct.pack(">2I", 0, not left)

    def statfs(self, now, cred, file):
        self.live(file)
        return struct.pack(">5I", 8192, SECTOR, self.blocks, self.free(), self.free())


def own_id(number):
    return 65534 if number > 65535 else number


def copied(model):
    return pickle.loads(pickle.dumps(model))


def answer(model, kind, now, cred, arguments):
    """The reply at that second, and the files after it; a refused call changes nothing."""
    after = copied(model)
    try:
        return struct.pack(">I", OK) + getattr(after, kind)(now, cred, *arguments), after
    except Refused as refusal:
        return struct.pack(">I", refusal.args[0]), model
