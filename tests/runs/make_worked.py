#!/usr/bin/env python3
"""make_worked.py [--check]

Makes the segment file, the input and the output of the program `run` (crates/run/data/segments, stdin and stdout) from
worked.txt beside this script, where document 01's worked run stands in words. With --check nothing is written: it fails where a
file is not what would be made.
"""
import pathlib, sys

HERE = pathlib.Path(__file__).resolve().parent
CRATE = HERE.parent.parent / "crates" / "run"
sys.path.insert(0, str(HERE))
from describe import made  # noqa: E402


def main():
    wrong = 0
    segments, asked, lines = made((HERE / "worked.txt").read_text(encoding="utf-8"))
    for name, content in (("data/segments", segments), ("stdin", asked), ("stdout", lines.encode())):
        path = CRATE / name
        if sys.argv[1:] == ["--check"]:
            if not path.is_file() or path.read_bytes() != content:
                print("make_worked: crates/run/%s is not what worked.txt says" % name, file=sys.stderr)
                wrong = 1
        else:
            path.parent.mkdir(parents=True, exist_ok=True)
            path.write_bytes(content)
    return wrong


if sys.argv[1:] not in ([], ["--check"]):
    sys.exit(__doc__)
sys.exit(main())
