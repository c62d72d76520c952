#!/usr/bin/env python3
"""Runs `dnplay` over real directories against a reference of its own: a plain map of blocks.

    python3 trials/against_reference.py [COUNT] [--seed N] [--seconds N]

It wants the program that `rt run` in `crates/dnplay`, or the gate, leaves in `crates/dnplay/out`. For each of COUNT
seeds from N on (0 where none is given) four random scripts run one after the other over one to four volumes, and every
reply is compared; then three scripts are killed at a random moment, and what the next run reads is compared: all that
was answered stands, and only the block of the line that was cut off may stand before or after that line. Between two
scripts some files of replicas are spoilt, so that reads answer verdicts, copies of replicas are put on other volumes,
of which an opening keeps the greatest, block files without a meta file are left, which wait where their block has no
replica, and meta files are put beside others, of which one counts; each meta file that the program wrote is compared
with checksums made here. Each seed has its own shares of the volumes, so that starts are refused for room. With
--seconds no seed but the first begins later than that; without COUNT all begin that do by then. It ends with a line of
what was run, or with the first difference and status 1; the directories, in `crates/dnplay/out`, are left as they were
found then.
"""

import argparse
import copy
import itertools
import os
import pathlib
import random
import shutil
import subprocess
import sys
import time

CRATE = pathlib.Path(__file__).resolve().parent.parent / "crates" / "dnplay"
PROGRAM = CRATE / "out" / "dnplay"
DIRECTORY = CRATE / "out" / f"reference-{os.getpid()}"
# the bytes that the pool may use on a volume, and the most that a block has
SHARES = [40, 1000, 3000, 10**6, 2**50]
MOST = 134217728
# how long one run may take, in seconds
LIMIT = 30
IDS = ["1", "2", "3", "70000", str(2**63 - 1)]


def table_of(polynomial):
    table = []
    for byte in range(256):
        for _ in range(8):
            byte = byte >> 1 ^ (polynomial if byte & 1 else 0)
        table.append(byte)
    return table


TABLES = {1: table_of(0xEDB88320), 2: table_of(0x82F63B78)}


def checksum(kind, chunk):
    total = 0xFFFFFFFF
    for byte in chunk:
        total = total >> 8 ^ TABLES[kind][(total ^ byte) & 0xFF]
    return total ^ 0xFFFFFFFF


def sums_of(kind, step, content):
    chunks = [content[at : at + step] for at in range(0, len(content), step)]
    return b"".join(checksum(kind, chunk).to_bytes(4, "big") for chunk in chunks)


def meta_of(kind, step, content):
    header = bytes([0, 1, kind]) + step.to_bytes(4, "big")
    return header + (sums_of(kind, step, content) if kind else b"")


def verdict_of(meta, content):
    """The verdict on a block of this content; none where it is whole."""
    if len(meta) < 7:
        return f"badmeta short {len(meta)}"
    version, kind, step = int.from_bytes(meta[:2], "big"), meta[2], int.from_bytes(meta[3:7], "big")
    if version != 1:
        return f"badmeta version {version}"
    if kind > 2:
        return f"badmeta type {kind}"
    if not 1 <= step <= 1048576:
        return f"badmeta step {step}"
    if kind == 0:
        return None
    wanted, stored = sums_of(kind, step, content), meta[7:]
    if len(wanted) != len(stored):
        return f"count {len(wanted)} {min(len(stored), len(wanted) + 1)}"
    for at in range(0, len(wanted), 4):
        one, other = stored[at : at + 4], wanted[at : at + 4]
        if one != other:
            return f"badchunk {at // 4} {int.from_bytes(one, 'big')} {int.from_bytes(other, 'big')}"
    return None


class Reference:
    """What a client sees of each block, and on which volume it is: final, written, or waiting to be deleted, with the
    lengths of its block files; the spoilt meta files; and how volumes are chosen: by the pool's shares, in turn."""

    def __init__(self, shares):
        self.shares = shares
        self.pointer = 0
        self.spoilt = {}
        self.final = {}
        self.written = {}
        self.waiting = {}

    def used(self, volume):
        used = sum(len(content) // 2 for _, content, at in self.final.values() if at == volume)
        used += sum(need for _, need, _, at in self.written.values() if at == volume)
        return used + sum(lengths.get(volume, 0) for lengths in self.waiting.values())

    def free(self, volume):
        return max(self.shares[volume] - self.used(volume), 0)

    def refusal(self, block, need):
        if block in self.final:
            return "exists"
        if block in self.written:
            return "writing"
        if block in self.waiting:
            return "waiting"
        if need > MOST:
            return f"toolong {MOST}"
        free = max(self.free(volume) for volume in range(len(self.shares)))
        return f"full {need} {free}" if need > free else None

    def chosen(self, need):
        """From the pointer on, in a circle, the first volume with room; the pointer goes behind it."""
        count = len(self.shares)
        turns = [(self.pointer + at) % count for at in range(count)]
        volume = next(volume for volume in turns if self.free(volume) >= need)
        self.pointer = (volume + 1) % count
        return volume

    def report(self):
        rows = [
            f"volume {volume + 1} {share} {self.used(volume)} {sum(at == volume for _, _, at in self.final.values())}"
            for volume, share in enumerate(self.shares)
        ]
        return "\n".join([f"report {len(self.shares)} 0", *rows])

    def reply(self, line):
        words = line.split(" ")
        if words[0] == "reopen":
            self.reopen()
            return "ok"
        if words[0] == "report":
            return self.report()
        command, block = words[0], words[1]
        if command == "open":
            need = int(words[3])
            refusal = self.refusal(block, need)
            if refusal is None:
                self.written[block] = (words[2], need, "", self.chosen(need))
            return refusal or "ok"
        if command == "write":
            need = len(words[3]) // 2
            refusal = self.refusal(block, need)
            if refusal is None:
                self.final[block] = (words[2], words[3], self.chosen(need))
            return refusal or "ok"
        if command == "push":
            if block not in self.written:
                return "nowriter"
            stamp, need, pushed, volume = self.written[block]
            left = need - len(pushed) // 2
            if len(words[2]) // 2 > left:
                return f"over {left}"
            self.written[block] = (stamp, need, pushed + words[2], volume)
            return "ok"
        if command == "finish":
            if block not in self.written:
                return "nowriter"
            stamp, _, pushed, volume = self.written.pop(block)
            self.final[block] = (stamp, pushed, volume)
            return "ok"
        if command == "drop":
            return "ok" if self.written.pop(block, None) else "nowriter"
        if command == "read":
            if block in self.final:
                stamp, content, _ = self.final[block]
                verdict = verdict_of(self.meta(block), bytes.fromhex(content))
                return verdict or f"data {stamp} {content}"
            return "writing" if block in self.written else "waiting" if block in self.waiting else "none"
        if block in self.written:
            return "writing"
        if block in self.final:
            del self.final[block]
            self.spoilt.pop(block, None)
            return "ok"
        if block in self.waiting:
            del self.waiting[block]
            return "ok"
        return "none"

    def meta(self, block):
        return self.spoilt.get(block) or meta_of(2, 512, bytes.fromhex(self.final[block][1]))

    def reopen(self):
        """A block with an open writer waits to be deleted, with what was pushed; the choice begins anew."""
        self.waiting |= {block: {at: len(pushed) // 2} for block, (_, _, pushed, at) in self.written.items()}
        self.written = {}
        self.pointer = 0


def random_line(rng):
    block = rng.choice(IDS)
    stamp = rng.randint(1, rng.choice([5, 2**63 - 1]))
    content = bytes(rng.randrange(256) for _ in range(rng.choice([0, 1, 3, 20, 20, 511, 512, 513, 1500]))).hex()
    return rng.choice([
        f"open {block} {stamp} {rng.choice([0, 1, 5, 30, 30, 2000, MOST, MOST + 1])}",
        f"push {block} {content}",
        f"finish {block}",
        f"drop {block}",
        f"write {block} {stamp} {content}",
        f"read {block}",
        f"read {block}",
        f"delete {block}",
        "report",
        "reopen",
    ])


def random_shares(rng):
    return [rng.choice(SHARES) for _ in range(rng.randint(1, 4))]


def volume_of(number):
    return DIRECTORY / f"v{number + 1}"


def command(shares):
    DIRECTORY.mkdir(exist_ok=True)
    volumes = (f"DS-{at + 1}:{share}:{volume_of(at)}" for at, share in enumerate(shares))
    return [str(PROGRAM), "bp1", "DN-1", *volumes]


def replies_of(text):
    """The replies, of which a report has a line for each volume."""
    replies = []
    for line in text.split("\n")[:-1]:
        if line.startswith("volume "):
            replies[-1] += "\n" + line
        else:
            replies.append(line)
    return replies


def played(shares, lines):
    script = "".join(line + "\n" for line in lines).encode()
    try:
        run = subprocess.run(command(shares), input=script, capture_output=True, timeout=LIMIT)
    except subprocess.TimeoutExpired:
        sys.exit(f"a run of {len(lines)} lines had not ended after {LIMIT} seconds")
    if run.returncode != 0:
        sys.exit(f"status {run.returncode}: {run.stdout[-200:]!r}")
    return replies_of(run.stdout.decode())


def waiting_lengths(shares, block):
    """The bytes of the block files of a block that waits, by volume."""
    return {
        volume: sum(found.stat().st_size for found in volume_of(volume).rglob(f"current/**/blk_{block}"))
        for volume in range(len(shares))
    }


def path_of(volume, name):
    found = list(volume_of(volume).rglob(f"finalized/*/*/{name}"))
    return found[0] if found else sys.exit(f"no file {name} on volume {volume + 1}")


def final_volume(shares, block):
    """The volume of a replica after an opening, which leaves one copy."""
    found = [at for at in range(len(shares)) if list(volume_of(at).rglob(f"finalized/*/*/blk_{block}"))]
    return found[0] if len(found) == 1 else sys.exit(f"block {block} is on the volumes {found}")


def compare_metas(seed, reference):
    for block, (stamp, _, volume) in reference.final.items():
        final_volume(reference.shares, block)
        found = path_of(volume, f"blk_{block}_{stamp}.meta").read_bytes()
        if found != reference.meta(block):
            sys.exit(f"seed {seed}: the meta file of {block} is {found.hex()}")


def spoil(rng, reference):
    """Spoils a file of a replica: its meta file becomes another, or a byte of its block file does."""
    block = rng.choice(list(reference.final))
    stamp, content, volume = reference.final[block]
    content, meta = bytes.fromhex(content), reference.meta(block)
    meta = rng.choice([
        meta,
        meta[: rng.randrange(len(meta) + 1)] or b"\0",
        meta + bytes(rng.randint(1, 9)),
        meta_of(rng.randrange(3), rng.choice([1, 7, 512, 1048576]), content),
        meta_of(0, rng.choice([0, 1048577]), content),
        bytes([0, rng.randrange(3), rng.randrange(5)]) + meta[3:],
    ])
    if content and rng.random() < 0.5:
        at = rng.randrange(len(content))
        content = content[:at] + bytes([content[at] ^ rng.randint(1, 255)]) + content[at + 1 :]
        content = content[: rng.randint(0, len(content))] if rng.random() < 0.3 else content
    path_of(volume, f"blk_{block}").write_bytes(content)
    path_of(volume, f"blk_{block}_{stamp}.meta").write_bytes(meta)
    reference.final[block] = (stamp, content.hex(), volume)
    reference.spoilt[block] = meta


def folder_of(volume, block):
    finalized = volume_of(volume) / "current/bp1/current/finalized"
    return finalized / f"subdir{int(block) >> 16 & 31}" / f"subdir{int(block) >> 8 & 31}"


def double(rng, reference):
    """Puts copies of a replica on other volumes: the greatest by stamp, then length, then lowest volume stays."""
    block = rng.choice(list(reference.final))
    stamp, content, volume = reference.final[block]
    others = [at for at in range(len(reference.shares)) if at != volume]
    for other in rng.sample(others, rng.randint(0, len(others))):
        whole = bytes.fromhex(content)
        copied = rng.choice([whole, whole, whole + b"more", whole[: len(whole) // 2]])
        number = min(max(int(stamp) + rng.choice([0, 0, 1, -1]), 1), 2**63 - 1)
        folder = folder_of(other, block)
        folder.mkdir(parents=True, exist_ok=True)
        (folder / f"blk_{block}").write_bytes(copied)
        (folder / f"blk_{block}_{number}.meta").write_bytes(meta_of(2, 512, copied))
        best_stamp, best, best_volume = reference.final[block]
        if (number, len(copied), -other) > (int(best_stamp), len(best) // 2, -best_volume):
            reference.final[block] = (str(number), copied.hex(), other)
            reference.spoilt.pop(block, None)


def pile(rng, reference):
    """Puts more meta files beside the block file of a replica that has no other copy, and perhaps a block file under
    `current/rbw`: the greatest stamp counts, but where such a file stands the one below it."""
    block = rng.choice(list(reference.final))
    stamp, content, volume = reference.final[block]
    folders = [folder_of(at, block) for at in range(len(reference.shares))]
    if sum((folder / f"blk_{block}").exists() for folder in folders) != 1:
        return
    whole = bytes.fromhex(content)
    metas = {int(stamp): reference.meta(block)}
    for _ in range(rng.randint(1, 4)):
        number = min(max(int(stamp) + rng.randint(-3, 3), 1), 2**63 - 1)
        metas.setdefault(number, rng.choice([meta_of(2, 512, whole), meta_of(1, 7, whole), b"\0"]))
    for number, meta in metas.items():
        (folders[volume] / f"blk_{block}_{number}.meta").write_bytes(meta)
    written = volume_of(volume) / "current/bp1/current/rbw" / f"blk_{block}"
    if rng.random() < 0.5:
        written.parent.mkdir(parents=True, exist_ok=True)
        written.write_bytes(bytes(rng.choice([0, 1, 500])))
    numbers = sorted(metas)
    kept = numbers[-2] if len(numbers) > 1 and written.exists() else numbers[-1]
    reference.final[block] = (str(kept), content, volume)
    reference.spoilt[block] = metas[kept]


def abandon(rng, reference):
    """Leaves a block file without a meta file: it goes where the block has a replica, and waits elsewhere."""
    block, volume = rng.choice(IDS), rng.randrange(len(reference.shares))
    folder = rng.choice([folder_of(volume, block), volume_of(volume) / "current/bp1/current/rbw"])
    if (folder / f"blk_{block}").exists():
        return
    folder.mkdir(parents=True, exist_ok=True)
    content = bytes(rng.choice([0, 1, 7, 500]))
    (folder / f"blk_{block}").write_bytes(content)
    if block not in reference.final:
        lengths = reference.waiting.setdefault(block, {})
        lengths[volume] = lengths.get(volume, 0) + len(content)


def compare(seed):
    rng = random.Random(seed)
    shutil.rmtree(DIRECTORY, ignore_errors=True)
    reference = Reference(random_shares(rng))
    for _ in range(4):
        lines = [random_line(rng) for _ in range(rng.randint(0, 40))]
        replies = played(reference.shares, lines)
        wanted = [reference.reply(line) for line in lines]
        if replies != wanted:
            sys.exit(f"seed {seed}: {[d for d in zip(lines, replies, wanted) if d[1] != d[2]][:3]}")
        reference.reopen()
        compare_metas(seed, reference)
        if reference.final and rng.random() < 0.5:
            spoil(rng, reference)
        if reference.final and rng.random() < 0.5:
            double(rng, reference)
        if rng.random() < 0.5:
            abandon(rng, reference)
        if reference.final and rng.random() < 0.5:
            pile(rng, reference)


def killed(shares, lines, seconds):
    """The replies that a run wrote before it was killed."""
    run = subprocess.Popen(command(shares), stdin=subprocess.PIPE, stdout=subprocess.PIPE)
    run.stdin.write("".join(line + "\n" for line in lines).encode())
    run.stdin.flush()
    time.sleep(seconds)
    run.kill()
    replies = replies_of(run.stdout.read().decode())
    run.wait()
    return replies


def compare_killed(seed):
    rng = random.Random(seed)
    shutil.rmtree(DIRECTORY, ignore_errors=True)
    reference = Reference(random_shares(rng))
    for _ in range(3):
        lines = [random_line(rng) for _ in range(60)]
        replies = killed(reference.shares, lines, rng.random() * 0.12)
        for line, reply in zip(lines, replies):
            wanted = reference.reply(line)
            if reply != wanted:
                sys.exit(f"seed {seed}: {line}: {reply}, and not {wanted}")
        cut = lines[len(replies)] if len(replies) < len(lines) else None
        before, after = reference, copy.deepcopy(reference)
        if cut is not None:
            after.reply(cut)
        before.reopen()
        after.reopen()
        found = Reference(reference.shares)
        for block, reply in zip(IDS, played(reference.shares, [f"read {block}" for block in IDS])):
            allowed = {before.reply(f"read {block}"), after.reply(f"read {block}")}
            if cut is not None and cut.split(" ")[1:2] == [block] and block not in before.final:
                # files without a replica may stand of it or not
                allowed |= {"none", "waiting"}
            if reply not in allowed:
                sys.exit(f"seed {seed}: block {block} after the cut {cut}: {reply}, and not one of {sorted(allowed)}")
            words = reply.split(" ")
            if words[0] == "data":
                found.final[block] = (words[1], words[2], final_volume(reference.shares, block))
            elif words[0] == "waiting":
                found.waiting[block] = waiting_lengths(reference.shares, block)
        reference = found


def main():
    parser = argparse.ArgumentParser(description="Runs dnplay over real directories against a plain map of blocks.")
    parser.add_argument("count", metavar="COUNT", type=int, nargs="?", help="how many seeds")
    parser.add_argument("--seed", type=int, default=0, help="the first seed")
    parser.add_argument("--seconds", type=float, help="begin no further seed after so many seconds")
    said = parser.parse_args()
    if said.count is None and said.seconds is None:
        parser.error("COUNT or --seconds must be given")
    if said.count is not None and said.count < 1:
        parser.error("COUNT is 1 or more")
    if not PROGRAM.exists():
        sys.exit(f"{PROGRAM} isn't there: see README.md on how to build it")
    begun, done = time.monotonic(), 0
    for seed in itertools.count(said.seed):
        is_late = said.seconds is not None and done > 0 and time.monotonic() - begun >= said.seconds
        if done == said.count or is_late:
            break
        compare(seed)
        compare_killed(seed)
        done += 1
    shutil.rmtree(DIRECTORY, ignore_errors=True)
    print(f"{4 * done} scripts and {3 * done} killed scripts: every reply is that of the reference")


if __name__ == "__main__":
    main()
