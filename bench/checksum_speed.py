#!/usr/bin/env python3
"""Measures the checksums of `meta_file` beside those of zlib, in one run.

    python3 bench/checksum_speed.py

It wants the program that `rt run` in `crates/checksum_speed` builds, and python3's zlib. It prints how many bytes each
of them sums in a second of processor time, over one buffer of 65,536 bytes; the program in chunks of 512. Where
valgrind and a C compiler are there, it also prints the instructions a byte, and those of a loop in C that sums by eight
bytes.
"""

import pathlib
import resource
import shutil
import subprocess
import sys
import tempfile
import time
import zlib

PROGRAM = pathlib.Path(__file__).resolve().parent.parent / "crates" / "checksum_speed" / "out" / "checksum_speed"
BYTES = 65_536
LOOP = r"""
#include <stdint.h>
#include <stdio.h>
#include <stdlib.h>
static uint32_t t[8][256];
static uint8_t b[65536];
int main(int n, char **a) {
  for (int i = 0; i < 256; i++) { uint32_t c = i; for (int k = 0; k < 8; k++) c = c & 1 ? c >> 1 ^ 0xedb88320 : c >> 1; t[0][i] = c; }
  for (int r = 1; r < 8; r++) for (int i = 0; i < 256; i++) t[r][i] = t[r-1][i] >> 8 ^ t[0][t[r-1][i] & 255];
  for (int i = 0; i < 65536; i++) b[i] = 0xa5;
  uint32_t out = 0;
  for (long turn = atol(a[1]); turn > 0; turn--)
    for (int at = 0; at < 65536; at += 512) {
      uint32_t c = ~0u;
      for (const uint8_t *p = b + at, *e = p + 512; p < e; p += 8) {
        uint32_t lo = c ^ (p[0] | p[1] << 8 | p[2] << 16 | (uint32_t)p[3] << 24);
        uint32_t hi = p[4] | p[5] << 8 | p[6] << 16 | (uint32_t)p[7] << 24;
        c = t[7][lo & 255] ^ t[6][lo >> 8 & 255] ^ t[5][lo >> 16 & 255] ^ t[4][lo >> 24]
          ^ t[3][hi & 255] ^ t[2][hi >> 8 & 255] ^ t[1][hi >> 16 & 255] ^ t[0][hi >> 24];
      }
      out ^= ~c;
    }
  printf("%u\n", out);
}
"""


def program_seconds(turns):
    before = resource.getrusage(resource.RUSAGE_CHILDREN).ru_utime
    subprocess.run([PROGRAM, str(turns)], check=True, capture_output=True)
    return resource.getrusage(resource.RUSAGE_CHILDREN).ru_utime - before


def zlib_seconds(turns):
    buffer = bytes([0xA5]) * BYTES
    before = time.process_time()
    for _ in range(turns):
        zlib.crc32(buffer)
    return time.process_time() - before


def instructions(command, turns):
    run = subprocess.run(
        ["valgrind", "--tool=callgrind", "--callgrind-out-file=/dev/null", *map(str, command), str(turns)],
        capture_output=True, text=True, check=True)
    return int(run.stderr.split("Collected :")[1].split()[0])


def instructions_a_byte(command):
    return (instructions(command, 60) - instructions(command, 10)) / (50 * BYTES)


def main():
    if not PROGRAM.exists():
        sys.exit("build it first: cd crates/checksum_speed && rt run")
    turns = 20_000
    for _ in range(3):
        own, other = program_seconds(turns) - program_seconds(0), zlib_seconds(turns)
        total = turns * BYTES / 1e9
        print(f"meta_file {total / own:.2f} GB/s, zlib {total / other:.2f} GB/s, ratio {other / own:.2f}")
    if shutil.which("valgrind") and shutil.which("cc"):
        with tempfile.TemporaryDirectory() as folder:
            source = pathlib.Path(folder) / "loop.c"
            source.write_text(LOOP)
            loop = pathlib.Path(folder) / "loop"
            subprocess.run(["cc", "-O2", "-o", loop, source], check=True)
            own, other = instructions_a_byte([PROGRAM]), instructions_a_byte([loop])
        print(f"meta_file {own:.2f} instructions a byte, a loop in C {other:.2f}, ratio {own / other:.2f}")


if __name__ == "__main__":
    main()
