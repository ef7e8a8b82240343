#!/usr/bin/env python3
"""The lines of `xfs audit` by docs/JOURNAL.md alone: ./journal_lines.py [xfs.journal [FILE..]] prints a `record` line for
each record of the journal, and then the files' lines, in which the mechanism's list and its places are told."""
import pathlib, sys

def bodies(data, at=8):
    if data[:7] != b"XFSJRNL":
        sys.exit("the file is no journal")
    while data[at : at + 1] == b"\1":
        body, end = at + 3, at + 3 + int.from_bytes(data[at + 1 : at + 3], "big")
        if end >= len(data):
            sys.exit(f"the record at {at} isn't whole")
        yield data[body:end]
        at = end

journal, *others = sys.argv[1:] or ["xfs.journal"]
for body in bodies(pathlib.Path(journal).read_bytes()):
    print("record", body.hex().upper())
for lines in others:
    sys.stdout.write(pathlib.Path(lines).read_text())
