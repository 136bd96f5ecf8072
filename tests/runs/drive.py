#!/usr/bin/env python3
"""drive.py PROGRAM: gives each run of *.txt beside this script to a run program and compares all that it prints. A run
that lists no segment has no segment file. Fails unless the runs together reach every number but 1, and every reason."""
import os, pathlib, subprocess, sys, tempfile

HERE = pathlib.Path(__file__).resolve().parent
sys.path.insert(0, str(HERE))
from describe import made  # noqa: E402

WANTED = {(n, 0) for n in (0, 2, *range(4, 10), *range(11, 18))} | {(3, r) for r in range(1, 8)} | {(10, r) for r in range(1, 7)}


def main():
    program, reached = os.path.abspath(sys.argv[1]), set()
    for path in sorted(HERE.glob("*.txt")):
        segments, asked, lines = made(path.read_text(encoding="utf-8"))
        with tempfile.TemporaryDirectory() as folder:
            if segments:
                pathlib.Path(folder, "segments").write_bytes(segments)
            done = subprocess.run([program], cwd=folder, input=asked, capture_output=True)
        if done.stdout.decode() != lines or done.returncode:
            for n, pair in enumerate(zip(done.stdout.decode().splitlines(), lines.splitlines()), 1):
                if pair[0] != pair[1]:
                    sys.exit("%s, line %d: the program printed %s, expected %s" % (path.name, n, *pair))
            sys.exit("%s: the program printed another number of lines" % path.name)
        reached |= {tuple(int(x) for x in line.split()[1:3]) for line in lines.splitlines()}
    if not WANTED <= reached:
        sys.exit("the stored runs never reach %s" % sorted(WANTED - reached))
    print("stored runs: every number but 1 and every reason, as expected")


main()
