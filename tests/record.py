#!/usr/bin/env python3
"""The record of what the gate proved, proved.txt, is that of this tree: ./run tells by it what it runs without proofs.

    tests/record.py            at the top of the repository; its last line is 'N passed, M failed'
    tests/record.py --write    writes the record of the tree as it stands, with the date of today
Its one line is a date and a sum of what a proof reads: crates.txt, each .rt and .antt file of crates/, and the line by
which the toolchain names itself (tools/quick.py). It is true once ./test has passed: so where only this part fails, the
line that is told is what to commit.
"""
import os
import time

import cases
import quick

HEAD = "# When ./test passed last, and the sum of the text that it passed; 'tests/record.py --write' writes this.\n"


def line():
    return f"{time.strftime('%Y-%m-%d', time.gmtime())} {quick.digest('.', quick.PROVED_OF)}"


def wrong():
    """What is wrong with the record, or None."""
    if not os.path.exists(quick.RECORD):
        return f"there is no {quick.RECORD}"
    found = quick.recorded(".")
    if not found:
        return f"{quick.RECORD} has not one line of a date and a sum"
    if found[1] != quick.digest(".", quick.PROVED_OF):
        return f"{quick.RECORD} is of another text than this tree's"
    if found[0] > time.strftime("%Y-%m-%d", time.gmtime(time.time() + 86400)):
        return f"{quick.RECORD} has a date to come"
    return None


def main():
    if "--write" in cases.given(__doc__, "--write", words=0):
        cases.write(quick.RECORD, f"{HEAD}{line()}\n")
        print(line())
        return
    told, why = cases.Tally(), wrong()
    if why:
        why = f"{why}. Where all else passes, commit the line that 'tests/record.py --write' writes: {line()}"
    told.count("record", why, told=f"{' '.join(quick.recorded('.') or ())} is of this tree")
    told.end()


main()
