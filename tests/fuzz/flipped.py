#!/usr/bin/env python3
"""Does the fuzzer notice?  Turns conditional jumps of the library in the fuzzer that stands built, one at a time, and lets it run on each.

    flipped.py [COUNT [SECONDS [SEED]]]    60 jumps and 20 seconds where no word says otherwise

A turned jump is noticed where the fuzzer finds something wrong or does not end.  The last line says how many were.  Turning a jump may
change no answer, in a path that is only shorter; such a jump cannot be noticed.
"""

import os
import random
import re
import shutil
import subprocess
import sys
import tempfile
from pathlib import Path

ROOT = Path(__file__).resolve().parents[2]
WORK = ROOT / "target/fuzz"
FUZZER = WORK / "fuzz"


def dumped(*words):
    return subprocess.run(["objdump", *words, str(FUZZER)], stdout=subprocess.PIPE, text=True, check=True).stdout


def text_offset():
    """What is added to an address of the program's text to find it in the file."""
    found = re.search(r"^\s*\d+ \.text\s+[0-9a-f]+\s+([0-9a-f]+)\s+[0-9a-f]+\s+([0-9a-f]+)", dumped("-h", "-w"), re.M)
    return int(found[2], 16) - int(found[1], 16)


def jumps():
    """Every conditional jump of the library: its function, and the address of the byte whose lowest bit turns the condition."""
    ours, function = set((WORK / "functions").read_text().split()), ""
    for line in dumped("-d", "-w").splitlines():
        if line.endswith(">:"):
            function = line.split("<")[1][:-2]
        elif function in ours:
            found = re.match(r"\s*([0-9a-f]+):\t(7[0-9a-f]|0f 8[0-9a-f]) .*\tj", line)
            if found:
                yield function, int(found[1], 16) + (len(found[2]) > 2)


def ends(program, seconds):
    """How the fuzzer ends from the examples alone: its status, or None where it does not end."""
    with tempfile.TemporaryDirectory() as folder:
        for seed in WORK.glob("corpus/*.scene"):
            shutil.copy(seed, folder)
        settings = {**os.environ, "FUZZ_INSTRUCTIONS": str(WORK / "instructions"), "ASAN_OPTIONS": "detect_leaks=0"}
        words = [str(program), f"-max_total_time={seconds}", "-max_len=4096", "-timeout=10", f"-artifact_prefix={folder}/", folder]
        try:
            silent = {"stdout": subprocess.DEVNULL, "stderr": subprocess.DEVNULL}
            return subprocess.run(words, env=settings, check=False, timeout=4 * seconds + 60, **silent).returncode
        except subprocess.TimeoutExpired:
            return None


def is_noticed(at, seconds):
    turned = WORK / "turned"
    data = bytearray(FUZZER.read_bytes())
    data[at] ^= 1
    turned.write_bytes(data)
    turned.chmod(0o755)
    return ends(turned, seconds) != 0


def main(count=60, seconds=20, seed=1):
    subprocess.run([str(ROOT / "tests/fuzz/run"), "1"], stderr=subprocess.DEVNULL, check=True)
    if ends(FUZZER, seconds) != 0:
        sys.exit("the library as it is does not pass")
    every, offset, noticed = list(jumps()), text_offset(), 0
    chosen = random.Random(seed).sample(every, min(count, len(every)))
    for function, at in chosen:
        seen = is_noticed(at + offset, seconds)
        noticed += seen
        print(f"{'noticed' if seen else 'unseen '} {at:x} in {function}", flush=True)
    print(f"{noticed} of {len(chosen)} turned jumps are noticed; the library has {len(every)}")


if __name__ == "__main__":
    main(*map(int, sys.argv[1:]))
