#!/usr/bin/env python3
"""`blocks.py PROGRAM LIBRARY`: where the basic blocks of the library's functions begin in the linked program, a line `ADDRESS FUNCTION` for
each. A block begins with a function, at a jump's target, after a conditional jump, and after an instruction that does not go on: what
stands there is reached by a jump through a table, if at all."""

import re
import subprocess
import sys

GOES_NOWHERE = ("jmp", "ret", "retq", "ud2", "hlt", "int3")


def lines_of(*command):
    return subprocess.run(command, check=True, capture_output=True, text=True).stdout.splitlines()


def main():
    program, library = sys.argv[1:]
    functions = {line.split()[-1] for line in lines_of("nm", library) if re.search(r" [tT] ", line)}
    blocks, here, starts, before = {}, None, set(), ""
    for line in lines_of("objdump", "-d", "--no-show-raw-insn", program) + ["0000000000000000 <.end>:"]:
        header = re.match(r"([0-9a-f]+) <(.+)>:$", line)
        if header:
            here = header[2] if header[2] in functions else None
            starts, before = set(), ""
            if here:
                blocks[int(header[1], 16)] = here
            continue
        instruction = re.match(r"\s*([0-9a-f]+):\s+(\S+)\s*(\S*)", line)
        if not here or not instruction:
            continue
        place, word, rest = int(instruction[1], 16), instruction[2], instruction[3]
        if word.startswith("nop") or word in ("data16", "cs", "xchg"):
            continue
        if before.startswith("j") or before in GOES_NOWHERE:
            starts.add(place)
        if word.startswith("j") and re.match(r"[0-9a-f]+$", rest):
            starts.add(int(rest, 16))
        before = word
        for start in starts:
            blocks.setdefault(start, here)
        starts = {start for start in starts if start > place}
    for place, function in sorted(blocks.items()):
        print(f"{place:x} {function}")


main()
