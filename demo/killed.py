"""Random calls on a tree of files, as tree.py makes them, of which the last is under way, or just answered, when the server is killed; then what the volume may be.

killed.py PORT SEED CALLS MODEL PID KIND ..: goes on from the model that tree.py kept, makes so many calls of these kinds and one more, and kills the
server, the process PID, at once or up to a fifth of a second later. It keeps what the volume may be then.
killed.py PORT SEED settle MODEL KIND ..: finds which of these the volume is, compares it whole, and keeps that as the model.
"""

import os
import pickle
import signal
import struct
import sys
import time

import tree
from model import DIRECTORY, SECTOR, answer, copied
from tree import ROOT_USER
from wire import Client

PAUSES = [0, 0.0005, 0.001, 0.002, 0.004, 0.008, 0.02, 0.2]
MAKERS = ["create", "symlink", "mkdir"]
CHANGES = ["setattr", "write", "remove", "rename", "link", "rmdir"] + MAKERS


# ---- killing


def send_and_kill(client, chance, pid, cred, kind, arguments):
    """The reply, if one came, and the seconds between which the call was made."""
    before = int(time.time())
    client.send(cred, kind, arguments)
    time.sleep(chance.choice(PAUSES))
    os.kill(pid, signal.SIGKILL)
    after = int(time.time())
    client.socket.settimeout(0.2)
    try:
        return client.receive(kind), before, after
    except OSError:
        return None, before, after


def next_change(model, chooser):
    kind, cred, arguments = chooser.next(model)
    while kind not in CHANGES:
        kind, cred, arguments = chooser.next(model)
    return kind, cred, arguments


def cut(client, model, chooser, pid):
    """What the volume may be: the files before the call, those after it, or what a crash may leave of it; those after it alone where the reply came."""
    kind, cred, arguments = next_change(model, chooser)
    reply, before, after = send_and_kill(client, chooser.chance, pid, cred, kind, arguments)
    afters = [answer(model, kind, now, cred, arguments) for now in range(before - 1, after + 1)]
    if reply is not None:
        afters = [(wanted, trial) for wanted, trial in afters if wanted == reply]
        if not afters:
            raise SystemExit(f"{kind} {cred} {arguments}: came {reply.hex()[:400]}")
    print(f"killed in {kind}, {'without' if reply is None else 'after'} its reply")
    return {"before": model if reply is None else None, "afters": [trial for _, trial in afters], "kind": kind, "arguments": arguments}


# ---- what a crash may leave (docs/CALLS.md, "Torn")


def times(node):
    return node.mtime, node.ctime


def with_times_found(client, base, before, after):
    """These files, but each node that stands before and after has the times that are found, where they are its old or its new ones."""
    found = copied(base)
    for ino in set(found.nodes) & set(before.nodes) & set(after.nodes):
        reply, _, _ = client.call(ROOT_USER, "getattr", [(ino, found.generation(ino))])
        if reply[:4] != bytes(4):
            continue
        pair = tuple(struct.unpack_from(">I", reply, 4 + 4 * word)[0] for word in (13, 15))
        if pair in (times(before.nodes[ino]), times(after.nodes[ino])):
            found.nodes[ino].mtime, found.nodes[ino].ctime = pair
    return found


def with_sectors_found(client, before, after, arguments):
    """The files before a WRITE, where each held sector below the old size is the old one or the new one, whichever is found."""
    found = copied(before)
    ino, generation = arguments[0]
    node, new = found.nodes[ino], after.nodes[ino]
    for index in node.held:
        begin = index * SECTOR
        count = max(0, min(SECTOR, node.size - begin))
        reply, _, _ = client.call(ROOT_USER, "read", [(ino, generation), begin, count])
        if count and reply[4 + 68 + 4 :][:count] != node.held[index][:count]:
            node.held[index] = new.held[index][:count].ljust(SECTOR, b"\0")
    return found


def with_both_names(before, after, arguments):
    """The files after a RENAME with the old slot back, where two slots change and what they name is no directory."""
    (old, _), name = arguments[:2]
    index = before.slot_of(before.nodes[old], name)
    entry = before.nodes[old].slots[index]
    if after.nodes[old].slots[index] is not None or after.nodes[entry[0]].kind == DIRECTORY:
        return None
    both = copied(after)
    both.nodes[old].slots[index] = entry
    return both


def with_generation_raised(before, after):
    raised = copied(before)
    raised.generations = dict(after.generations)
    return raised


def torn(client, before, after, kind, arguments):
    """What a crash may leave of a call that isn't refused, each with its words."""
    if kind == "write":
        yield "as before it, with some of its sectors", with_sectors_found(client, before, after, arguments)
        return
    yield "as before it, but for times", with_times_found(client, before, before, after)
    yield "as after it, but for times", with_times_found(client, after, before, after)
    if kind in MAKERS:
        yield "as before it, with the generation alone", with_generation_raised(before, after)
    if kind == "rename":
        both = with_both_names(before, after, arguments)
        if both is not None:
            yield "with both names", with_times_found(client, both, before, after)


def candidates(client, kept):
    before = kept["before"]
    if before is not None:
        yield "as before it", before
    for after in kept["afters"]:
        yield "as after it", after
    if before is None:
        return
    for after in kept["afters"]:
        if pickle.dumps(after) != pickle.dumps(before):
            yield from torn(client, before, after, kept["kind"], kept["arguments"])


# ---- settling


def is_found(client, model, kinds, names):
    try:
        tree.compare(client, model, kinds, names)
    except SystemExit:
        return False
    return True


def probe(client, found):
    """A file is made and removed, which tells whether the generation that the call would have used was raised. It takes no block where some
    directory has an empty slot."""
    model = found[0][1]
    ino = next((ino for ino, node in model.nodes.items() if node.kind == DIRECTORY and None in node.slots), 2)
    unset = dict.fromkeys(("mode", "uid", "gid", "size", "atime", "mtime"))
    file, name = (ino, model.generation(ino)), b"probe"
    reply, before, after = client.call(ROOT_USER, "create", [file, name, unset])
    for words, candidate in found:
        for now in range(before - 1, after + 1):
            wanted, trial = answer(candidate, "create", now, ROOT_USER, [file, name, unset])
            if wanted == reply:
                return words, tree.check(client, trial, "remove", ROOT_USER, [file, name])
    raise SystemExit(f"a file is made otherwise: {reply.hex()[:400]}")


def names_in(kind, arguments):
    texts = [argument for argument in arguments if isinstance(argument, bytes)]
    return [] if kind == "write" else texts[:1] if kind == "symlink" else texts


def settle(client, kept, kinds):
    names = names_in(kept["kind"], kept["arguments"])
    found = [(words, model) for words, model in candidates(client, kept) if is_found(client, model, kinds, names)]
    if not found:
        raise SystemExit(f"after a kill in {kept['kind']} {kept['arguments']}"[:400] + " the volume is none that it may be")
    return probe(client, found)


# ---- the words of the command line


def load(path):
    with open(path, "rb") as file:
        return pickle.load(file)


def keep(path, value):
    with open(path, "wb") as file:
        pickle.dump(value, file)


def main(port, seed, calls, path, words):
    client, kept = Client(port), load(path)
    if calls == "settle":
        found, model = settle(client, kept, words)
        tree.compare(client, model, words)
        keep(path, model)
        print(f"{found}: {tree.summary(model)}")
        return
    pid, kinds = int(words[0]), words[1:]
    chooser = tree.Chooser(seed, kinds)
    for _ in range(int(calls)):
        kind, cred, arguments = chooser.next(kept)
        kept = tree.check(client, kept, kind, cred, arguments)
    keep(path, cut(client, kept, chooser, pid))


if __name__ == "__main__":
    main(int(sys.argv[1]), int(sys.argv[2]), sys.argv[3], sys.argv[4], sys.argv[5:])
