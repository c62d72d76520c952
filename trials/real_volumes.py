#!/usr/bin/env python3
"""Runs `dnplay` over directories in which other things stand than it makes, and beside other processes.

    python3 trials/real_volumes.py [PROGRAM]

It wants the program that `rt run` in `crates/dnplay` builds. A volume that another process has locked, or whose lock
can't be taken, is left as it is, file by file. Links, FIFOs, sockets, devices, directories and files with further
names, at each name where the program makes or reads one, are neither followed nor opened nor written: what stands
outside of the volume stays as it was, and no line waits for another process. On a file system that is full, what was
answered before is there. Over two volumes writes go to each in turn, and of two copies the greater stays. Each run is
compared with the replies and the status that it must have; the last line says what was run, or the first difference.
Devices are made and a small file system is mounted by root alone: without, they are left out.
"""

import fcntl
import itertools
import os
import pathlib
import shutil
import socket
import stat
import subprocess
import sys
import tempfile

CRATE = pathlib.Path(__file__).resolve().parent.parent / "crates" / "dnplay"
PROGRAM = pathlib.Path(sys.argv[1] if len(sys.argv) > 1 else CRATE / "out" / "dnplay").resolve()
REFUSED = (["end open"], 6)
NOBODY = 65534
PLACE = "current/finalized/subdir0/subdir0"
CONTENT = "68656c6c6f"
DATA = f"data 1001 {CONTENT}"
WRITE = f"write 5 1001 {CONTENT}"


class Run:
    """A run of the program that goes on, line by line."""

    def __init__(self, volume, pools="bp1", **options):
        words = [str(PROGRAM), pools, "DN-1", *(f"DS-{i}:1000000000:{dir}" for i, dir in enumerate(volume, 1))]
        self.run = subprocess.Popen(words, stdin=subprocess.PIPE, stdout=subprocess.PIPE, **options)

    def reply(self, line):
        self.run.stdin.write(line.encode() + b"\n")
        self.run.stdin.flush()
        return self.run.stdout.readline().decode().rstrip("\n")

    def end(self, lines=()):
        """The further replies, and the status. A run that waits for another process is a fault."""
        text = "".join(line + "\n" for line in lines).encode()
        try:
            written, _ = self.run.communicate(text, timeout=60)
        except subprocess.TimeoutExpired:
            self.run.kill()
            sys.exit(f"{lines}: the run waits")
        return written.decode().split("\n")[:-1], self.run.returncode


def played(volume, lines, pools="bp1", **options):
    return Run([volume], pools, **options).end(lines)


def want(what, found, wanted):
    if found != wanted:
        sys.exit(f"{what}: {found}, and not {wanted}")


def tree(directory):
    """Each name below a directory, with all that tells whether it was changed or written."""
    found = {}
    for path in [directory, *sorted(directory.rglob("*"))]:
        about = path.lstat()
        content = os.readlink(path) if path.is_symlink() else None
        # a lock of this process would be lost where it closes a file that it opened at the lock's name
        if stat.S_ISREG(about.st_mode) and path.name != "in_use.lock":
            content = path.read_bytes()
        found[str(path)] = (about.st_ino, about.st_mode, about.st_size, about.st_mtime_ns, content)
    return found


def stored(directory, lines=(WRITE,)):
    """A volume in which the program stored block 5."""
    want("a first run", played(directory, lines), (["ok"] * len(lines), 0))
    return directory


# Locks


def try_lock(path, kind=fcntl.LOCK_EX):
    """A file with the lock that a run takes, or None where another process has it."""
    file = open(path, "r+b")
    try:
        fcntl.flock(file, kind | fcntl.LOCK_NB)
    except OSError:
        file.close()
        return None
    return file


def check_locks(room):
    volume = stored(room / "v")
    want("the lock's file", (volume / "in_use.lock").stat().st_size, 0)
    for kind in [fcntl.LOCK_EX, fcntl.LOCK_SH]:
        held = try_lock(volume / "in_use.lock", kind)
        before = tree(volume)
        for pools in ["bp1", "bp2"]:
            want("a locked volume", played(volume, ["read 5"], pools), REFUSED)
        want("the tree of a locked volume", tree(volume), before)
        held.close()
    want("a volume after its lock", played(volume, ["read 5"]), ([DATA], 0))

    empty, other = room / "empty", room / "other"
    empty.mkdir()
    (empty / "in_use.lock").touch()
    held = try_lock(empty / "in_use.lock")
    before = tree(empty)
    want("a locked volume without files", played(empty, ["read 5"]), REFUSED)
    for dirs in [[empty, other], [other, empty]]:
        want("a locked volume beside another", Run(dirs).end(["read 5"]), REFUSED)
        want("the tree of a locked volume beside another", tree(empty), before)
        want("a volume beside a locked one", [at for at in sorted(other.rglob("*")) if at.name != "in_use.lock"], [])
    held.close()


def check_two_runs(room):
    volume = room / "v"
    first = Run([volume])
    want("the first run", first.reply("open 5 1001 5"), "ok")
    want("the first run", first.reply("push 5 6865"), "ok")
    want("its lock as another process sees it", try_lock(volume / "in_use.lock"), None)
    before = tree(volume)
    want("the second run", played(volume, ["delete 5"]), REFUSED)
    (room / "link").symlink_to("v")
    want("the second run through a link", played(room / "link", ["delete 5"]), REFUSED)
    # both locks are of one file, and the second can't be taken beside the first
    want("the second run by two names", Run([room / "w", room / "w/../w"]).end(["read 5"]), REFUSED)
    want("the tree of the first run", tree(volume), before)
    want("the first run", first.end(["push 5 6c6c6f", "finish 5", "read 5"]), (["ok", "ok", DATA], 0))
    want("the next run", played(volume, ["read 5"]), ([DATA], 0))
    lock = try_lock(volume / "in_use.lock")
    want("the lock after the runs", lock is None, False)
    lock.close()
    killed = Run([volume])
    want("a run that is killed", killed.reply("read 5"), DATA)
    killed.run.kill()
    killed.run.wait()
    want("the run after one that was killed", played(volume, ["read 5"]), ([DATA], 0))


# Two volumes


def names_of(volume):
    """The files of block 5 and the others of its directory."""
    return sorted(path.name for path in (volume / "current/bp1" / PLACE).glob("*"))


def check_two_volumes(room):
    one, two = room / "1", room / "2"
    lines = [WRITE, "write 6 1001 61", "write 7 1001 62", "report"]
    report = ["report 2 0", "volume 1 1000000000 6 2", "volume 2 1000000000 1 1"]
    want("writes in turn", Run([one, two]).end(lines), (["ok", "ok", "ok", *report], 0))
    want("volume 1", names_of(one), ["blk_5", "blk_5_1001.meta", "blk_7", "blk_7_1001.meta"])
    want("volume 2", names_of(two), ["blk_6", "blk_6_1001.meta"])
    want("several pools", Run([one, two], "bp1,bp2").end(["read 5"]), (["end later 0"], 8))

    # a longer copy of a lesser stamp, and then the same pair on both, of which the one on the lower volume stays
    place = two / "current/bp1" / PLACE
    (place / "blk_5").write_bytes(b"longer than it")
    (place / "blk_5_1000.meta").write_bytes(bytes([0, 1, 0, 0, 0, 2, 0]))
    want("two copies", Run([one, two]).end(["read 5", "report"]), ([DATA, *report], 0))
    want("volume 2 without the lesser copy", names_of(two), ["blk_6", "blk_6_1001.meta"])
    for name in ["blk_5", "blk_5_1001.meta"]:
        shutil.copy(one / "current/bp1" / PLACE / name, place / name)
    want("a pair on both", Run([one, two]).end(["read 5", "report"]), ([DATA, *report], 0))
    want("volume 2 without the same pair", names_of(two), ["blk_6", "blk_6_1001.meta"])

    # the volumes by other places, and one volume alone
    report[1:] = ["volume 1 1000000000 1 1", "volume 2 1000000000 6 2"]
    found = Run([two, one]).end(["read 5", "read 6", "report"])
    want("the volumes turned round", found, ([DATA, "data 1001 61", *report], 0))
    want("volume 2 alone", played(two, ["read 5", "read 6"]), (["none", "data 1001 61"], 0))
    before = tree(one)
    (room / "file").write_bytes(b"kept")
    want("a file as volume 2", Run([one, room / "file"]).end(["delete 5"]), REFUSED)
    want("volume 1 beside a file", tree(one), before)
    held = try_lock(one / "in_use.lock")
    want("the lock of volume 1 after that", held is None, False)
    held.close()


# Directories in which nothing can be made, and streams that are closed


def check_directories(room):
    file = room / "file"
    file.write_bytes(b"kept")
    for volume in [file, file / "below"]:
        want("a directory that is a file", played(volume, ["read 5"]), REFUSED)
    want("the file", file.read_bytes(), b"kept")

    for kind, make in KINDS.items():
        if kind == "hard link":
            continue
        outside = Outside(room / f"outside {kind}", room / "file")
        volume = room / f"v {kind}"
        volume.mkdir()
        if make(volume / "in_use.lock", outside):
            before = tree(volume)
            want(f"a {kind} as the lock's file", played(volume, ["read 5"]), REFUSED)
            want(f"a volume with a {kind} as the lock's file", tree(volume), before)
            outside.compare(f"a {kind} as the lock's file")

    closed = stored(room / "closed")
    lines = "".join(f"open {block} 1001 9\n" for block in range(10, 20)).encode()
    for stream, wanted in [("<&-", (b"end source\n", 2)), (">&-", (b"", 3))]:
        words = ["sh", "-c", f'exec "$@" {stream}', "", str(PROGRAM), "bp1", "DN-1", f"DS-1:1000000000:{closed}"]
        run = subprocess.run(words, input=lines, capture_output=True, timeout=60)
        want(f"a run with {stream}", (run.stdout, run.returncode), wanted)
    for file in closed.rglob("current/rbw/blk_1*"):
        want("a file of a run whose output is closed", file.read_bytes()[7 * (file.suffix == ".meta") :], b"")

    # root may write anywhere
    user = {"user": NOBODY, "group": NOBODY, "extra_groups": []} if os.getuid() == 0 else {}
    sealed = room / "sealed"
    sealed.mkdir(mode=0o555)
    before = tree(sealed)
    for volume in [sealed, sealed / "below"]:
        want("a directory that isn't writable", played(volume, ["read 5"], **user), REFUSED)
    want("the directory that isn't writable", tree(sealed), before)


# A file system that is full


def check_full(room):
    volume = room / "full"
    volume.mkdir()
    mounted = subprocess.run(["mount", "-t", "tmpfs", "-o", "size=256k", "tmpfs", str(volume)], capture_output=True)
    if mounted.returncode:
        return False
    try:
        content = "ab" * 20000
        lines = [f"write {block} 1001 {content}" for block in range(1, 21)]
        replies, status = played(volume, lines)
        want("the replies of a file system that fills", sorted(set(replies)), ["failed", "ok"])
        want("the status of a file system that fills", (len(replies), status), (20, 0))
        reads = [f"read {block}" for block in range(1, 21)]
        found, status = played(volume, reads)
        want("the status of a full file system", status, 0)
        for block, (reply, read) in enumerate(zip(replies, found), 1):
            wanted = [f"data 1001 {content}"] if reply == "ok" else ["none", "waiting"]
            want(f"block {block}, answered {reply}", read in wanted, True)
        deletes = [f"delete {block}" for block in range(1, 21)]
        want("deletes of a full file system", set(played(volume, deletes)[0]) <= {"ok", "none"}, True)
        want("a write after them", played(volume, [lines[0], reads[0]]), (["ok", found[0]], 0))
    finally:
        subprocess.run(["umount", str(volume)], check=True)
    subprocess.run(["mount", "-t", "tmpfs", "-o", "nr_inodes=3", "tmpfs", str(volume)], check=True)
    try:
        want("a file system without room for directories", played(volume, ["read 5"]), REFUSED)
    finally:
        subprocess.run(["umount", str(volume)], check=True)
    return True


# What is no file of the program's at the names of its files


class Outside:
    """What links lead to: a copy of what stood at the name, outside of the volume."""

    def __init__(self, directory, original):
        self.directory = directory
        directory.mkdir()
        self.file, self.folder = directory / "file", directory / "folder"
        self.file.write_bytes(original.read_bytes() if original.is_file() else b"outside")
        if original.is_dir():
            shutil.copytree(original, self.folder)
        else:
            self.folder.mkdir()
        self.before = tree(directory)

    def compare(self, what):
        want(f"{what}: what stands outside", tree(self.directory), self.before)


def make_device(path, outside):
    try:
        os.mknod(path, stat.S_IFCHR | 0o666, os.makedev(1, 5))
    except PermissionError:
        return False
    return True


def make_socket(path, outside):
    with socket.socket(socket.AF_UNIX) as it:
        number = os.open(path.parent, os.O_RDONLY)
        it.bind(f"/proc/self/fd/{number}/{path.name}")
        os.close(number)
    return True


# Each makes a thing at a free name, and answers whether it could.
KINDS = {
    "link to a file": lambda path, outside: path.symlink_to(outside.file) is None,
    "link to a directory": lambda path, outside: path.symlink_to(outside.folder) is None,
    "dangling link": lambda path, outside: path.symlink_to(outside.directory / "absent") is None,
    "FIFO": lambda path, outside: os.mkfifo(path) is None,
    "socket": make_socket,
    "device": make_device,
    "directory": lambda path, outside: path.mkdir() is None,
    "hard link": lambda path, outside: os.link(outside.file, path) is None,
}

BLOCK, META = f"{PLACE}/blk_5", f"{PLACE}/blk_5_1001.meta"
RBW_BLOCK, RBW_META = "current/rbw/blk_7", "current/rbw/blk_7_1001.meta"
OTHER, OTHER_DATA = "write 7 1001 61", "data 1001 61"

# By the name at which a thing stands when the program is started: the lines, and their replies where it is a link, a
# FIFO, a socket or a device; where it is a directory; and where it is a file with a further name.
AT_START = {
    # the meta file is removed, as one without a block file is
    BLOCK: (
        ["read 5", WRITE, "read 5", "delete 5"],
        ["none", "ok", DATA, "ok"],
        ["none", "failed", "unsure", "failed"],
        [DATA, "exists", DATA, "ok"],
    ),
    # the block file waits to be deleted, as one without a meta file does
    META: (
        ["read 5", "delete 5", WRITE, "read 5"],
        ["waiting", "ok", "ok", DATA],
        ["waiting", "ok", "failed", "unsure"],
        [DATA, "ok", "ok", DATA],
    ),
    RBW_BLOCK: (
        [OTHER, "read 7", "delete 7"],
        ["ok", OTHER_DATA, "ok"],
        ["failed", "waiting", "failed"],
        ["waiting", "waiting", "ok"],
    ),
    RBW_META: (
        [OTHER, "read 7", "delete 7"],
        ["ok", OTHER_DATA, "ok"],
        ["failed", "waiting", "failed"],
        ["ok", OTHER_DATA, "ok"],
    ),
    "tmp/blk_9": (["read 5", "read 9"], [DATA, "none"], [DATA, "none"], [DATA, "none"]),
}

# The same by the name at which a thing is put between two lines of one run.
AT_ONCE = {
    BLOCK: (
        ["read 5", "delete 5", WRITE, "read 5"],
        ["failed", "ok", "ok", DATA],
        ["failed", "failed", "unsure", "unsure"],
        [DATA, "ok", "ok", DATA],
    ),
    META: (
        ["read 5", "delete 5", WRITE, "read 5"],
        ["failed", "ok", "ok", DATA],
        ["failed", "failed", "unsure", "unsure"],
        [DATA, "ok", "ok", DATA],
    ),
    RBW_BLOCK: ([OTHER, "read 7"], ["ok", OTHER_DATA], ["failed", "waiting"], ["ok", OTHER_DATA]),
    RBW_META: ([OTHER, "read 7"], ["ok", OTHER_DATA], ["failed", "waiting"], ["ok", OTHER_DATA]),
}

LAYOUT = ["current", "current/rbw", "current/finalized", "current/finalized/subdir0", PLACE, "tmp"]


def replies_of(case, kind):
    lines, others, directory, hard_link = case
    return lines, {"directory": directory, "hard link": hard_link}.get(kind, others)


def take_away(path):
    if path.is_dir():
        shutil.rmtree(path)
    else:
        path.unlink(missing_ok=True)


def check_names(room):
    """Each thing at each name of a file, when the program is started and while it runs."""
    count = 0
    for when, table in [("at the start", AT_START), ("while it runs", AT_ONCE)]:
        for (name, case), (kind, make) in itertools.product(table.items(), KINDS.items()):
            what = f"a {kind} at {name} {when}"
            volume = stored(room / f"{count} v")
            path = volume / "current" / "bp1" / name
            outside = Outside(room / f"{count} outside", path)
            count += 1
            lines, wanted = replies_of(case, kind)
            path.parent.mkdir(parents=True, exist_ok=True)
            run = None
            if when == "while it runs":
                run = Run([volume])
                want(what, run.reply("read 5"), DATA)
            take_away(path)
            if make(path, outside):
                want(what, (run or Run([volume])).end(lines), (wanted, 0))
                outside.compare(what)
            elif run:
                run.end()
    return count


def check_layout(room):
    """Each thing in place of each directory, when the program is started and while it runs."""
    count = 0
    below = [f"current/bp1/{name}" for name in LAYOUT]
    # the first two are looked at when the disks are made, and no line writes or reads below the last
    cases = [(name, False) for name in ["current", "current/bp1", *below]] + [(name, True) for name in below[:-1]]
    for (name, runs), (kind, make) in itertools.product(cases, KINDS.items()):
        if kind == "directory":
            continue
        what = f"a {kind} in place of {name}" + " while it runs" * runs
        volume = stored(room / f"{count} v")
        path = volume / name
        path.mkdir(parents=True, exist_ok=True)
        outside = Outside(room / f"{count} outside", path)
        count += 1
        run = Run([volume]) if runs else None
        if run:
            want(what, run.reply("read 5"), DATA)
        take_away(path)
        if not make(path, outside):
            if run:
                run.end()
            continue
        before = tree(volume)
        if run:
            lines = ["read 5"] if name != "current/bp1/current/rbw" else []
            replies, status = run.end([*lines, OTHER, "read 7"])
            want(what, (replies[:-2], replies[-2], status), (["failed"] * len(lines), "failed", 0))
            want(what, replies[-1] in ["waiting", "unsure"], True)
        else:
            want(what, played(volume, ["read 5"]), REFUSED)
            want(f"{what}: the volume", tree(volume), before)
        outside.compare(what)
    return count


def main():
    counts = []
    with tempfile.TemporaryDirectory(prefix="real-volumes-") as top:
        top = pathlib.Path(top)
        top.chmod(0o711)
        global PROGRAM
        PROGRAM = pathlib.Path(shutil.copy(PROGRAM, top / "dnplay"))
        PROGRAM.chmod(0o755)
        streams = [check_directories, check_full]
        for check in [check_locks, check_two_runs, check_two_volumes, *streams, check_names, check_layout]:
            room = top / check.__name__
            room.mkdir()
            counts.append(check(room))
    full = "a full file system" if counts[4] else "no full file system (mount isn't allowed here)"
    things = f"{counts[5]} things at names, {counts[6]} in place of directories"
    print(f"locks, two runs, two volumes, directories, {full}, {things}: all right")


if __name__ == "__main__":
    main()
