#!/usr/bin/env python3
"""Measures the opening of a pool beside a loop in C, in one run.

    python3 bench/opening.py [--volumes N] [COUNT ..]

It wants the program that `rt run` in `crates/dnplay` builds, and a C compiler. For each COUNT of replicas (1,000, 10,000
and 100,000 where none is given) it makes N volumes (3 where none is given) with so many replicas of five bytes in turn,
opens the pool and reads one of them, and runs a loop in C that lists each directory of the pool and asks the size of
each block file. It prints the time of both (the least of five runs, processor time of the program and of the system),
their ratio, and the peak memory a replica.
"""

import argparse
import os
import pathlib
import resource
import shutil
import subprocess
import sys
import tempfile

PROGRAM = pathlib.Path(__file__).resolve().parent.parent / "crates" / "dnplay" / "out" / "dnplay"
LOOP = r"""
#include <dirent.h>
#include <stdio.h>
#include <string.h>
#include <sys/stat.h>
static long long bytes, names;
static void list(const char *path, int sizes) {
  DIR *d = opendir(path);
  if (!d) return;
  for (struct dirent *e; (e = readdir(d));) {
    names++;
    size_t n = strlen(e->d_name);
    if (!sizes || strncmp(e->d_name, "blk_", 4) || (n > 5 && !strcmp(e->d_name + n - 5, ".meta"))) continue;
    struct stat s;
    if (!fstatat(dirfd(d), e->d_name, &s, AT_SYMLINK_NOFOLLOW)) bytes += s.st_size;
  }
  closedir(d);
}
int main(int n, char **a) {
  char path[4096];
  for (int v = 1; v < n; v++) {
    snprintf(path, sizeof path, "%s/rbw", a[v]); list(path, 1);
    snprintf(path, sizeof path, "%s/../tmp", a[v]); list(path, 0);
    for (int i = 0; i < 32; i++) for (int j = 0; j < 32; j++) {
      snprintf(path, sizeof path, "%s/finalized/subdir%d/subdir%d", a[v], i, j); list(path, 1);
    }
  }
  printf("%lld %lld\n", names, bytes);
}
"""


def run_child(command, text=b""):
    """The processor seconds of a child, and its peak memory in bytes."""
    read, write = os.pipe()
    process = os.fork()
    if process == 0:
        os.close(read)
        before = resource.getrusage(resource.RUSAGE_CHILDREN)
        done = subprocess.run(command, input=text, capture_output=True)
        after = resource.getrusage(resource.RUSAGE_CHILDREN)
        seconds = after.ru_utime + after.ru_stime - before.ru_utime - before.ru_stime
        os.write(write, f"{done.returncode} {seconds} {after.ru_maxrss * 1024} {done.stdout.decode()!r}".encode())
        os._exit(0)
    os.close(write)
    answer = os.read(read, 65536).decode()
    os.close(read)
    os.waitpid(process, 0)
    status, seconds, peak, out = answer.split(" ", 3)
    if status != "0":
        sys.exit(f"{command[0]} ended with status {status}: {out}")
    return float(seconds), int(peak)


def make_volumes(volumes, count, directory):
    """Volumes with so many replicas in turn, of which the program wrote the first of each; their `current`."""
    directory.mkdir()
    words = ["bp1", "DN-1", *(f"DS-{at}:1000000000:{directory}/v{at}" for at in range(1, volumes + 1))]
    run_child([str(PROGRAM), *words], "".join(f"write {at} 1001 68656c6c6f\n" for at in range(1, volumes + 1)).encode())
    finalized = []
    for at in range(1, volumes + 1):
        first = next((directory / f"v{at}").rglob(f"blk_{at}"))
        meta = next(first.parent.glob(f"blk_{at}_*.meta")).read_bytes()
        finalized.append(first.parent.parent.parent)
    for block in range(volumes + 1, count + 1):
        place = finalized[(block - 1) % volumes] / f"subdir{block >> 16 & 31}" / f"subdir{block >> 8 & 31}"
        place.mkdir(parents=True, exist_ok=True)
        (place / f"blk_{block}").write_bytes(b"hello")
        (place / f"blk_{block}_1001.meta").write_bytes(meta)
    return words, [str(at.parent) for at in finalized]


def main():
    parser = argparse.ArgumentParser(description="Measures the opening of a pool beside a loop in C.")
    parser.add_argument("counts", metavar="COUNT", type=int, nargs="*", default=[1_000, 10_000, 100_000])
    parser.add_argument("--volumes", type=int, default=3)
    said = parser.parse_args()
    counts = said.counts
    if not PROGRAM.exists():
        sys.exit("build the program first: rt run in crates/dnplay")
    with tempfile.TemporaryDirectory() as folder:
        source = pathlib.Path(folder) / "loop.c"
        source.write_text("#define _GNU_SOURCE\n#include <fcntl.h>\n" + LOOP)
        loop = pathlib.Path(folder) / "loop"
        subprocess.run(["cc", "-O2", "-o", loop, source], check=True)
        base = None
        for count in counts:
            directory = pathlib.Path(folder) / f"v{count}"
            words, currents = make_volumes(said.volumes, count, directory)
            ours = [run_child([str(PROGRAM), *words], b"read 1\n") for _ in range(5)]
            theirs = [run_child([str(loop), *currents]) for _ in range(5)]
            seconds, peak = min(ours)[0], max(peak for _, peak in ours)
            base = peak if base is None else base
            of_loop = min(theirs)[0]
            more = f", {(peak - base) / (count - counts[0]):.0f} bytes of memory a replica more" if count > counts[0] else ""
            print(f"{count} replicas: {seconds * 1000:.1f} ms ({seconds / count * 1e6:.1f} us a replica), "
                  f"loop in C {of_loop * 1000:.1f} ms, ratio {seconds / of_loop:.2f}{more}")
            shutil.rmtree(directory)


if __name__ == "__main__":
    main()
