#!/usr/bin/env python3
"""Makes what the programs in crates/ must print, from rules written a second time in Python.

    second/expected.py          writes the files that the crates keep
    second/expected.py --check  writes nothing; fails where a kept file differs from what is made anew
"""
import importlib
import os
import pathlib
import sys

HERE = pathlib.Path(__file__).resolve().parent
# Each of these modules has a function outputs(): paths from the repository's root, and the bytes of each.
MODULES = ["all_words", "listing", "bus_calls", "printing", "texts"]


def main():
    os.chdir(HERE.parent)
    sys.path.insert(0, str(HERE))
    check = sys.argv[1:] == ["--check"]
    if sys.argv[1:] and not check:
        sys.exit(__doc__)
    different = 0
    for name in MODULES:
        for path, made in importlib.import_module(name).outputs().items():
            file = pathlib.Path(path)
            kept = file.read_bytes() if file.exists() else None
            if kept == made:
                print(f"{path}: as made anew ({len(made)} bytes)")
            elif check:
                different += 1
                print(f"{path}: differs from what the second program makes")
            else:
                file.write_bytes(made)
                print(f"{path}: written ({len(made)} bytes)")
    sys.exit(1 if different else 0)


main()
