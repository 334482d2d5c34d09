#!/usr/bin/env python3
"""The second program's assembler as a command: prints what `./viking words` prints.

usage: bench/second.py [TIMES] < TEXT     assembles the text so many times and prints once
"""
import sys
from pathlib import Path

sys.path.insert(0, str(Path(__file__).resolve().parent.parent / "second"))

from printing import printed  # noqa: E402


def main():
    text = sys.stdin.buffer.read()
    for _ in range(int(sys.argv[1]) if len(sys.argv) > 1 else 1):
        answer = printed(text)
    sys.stdout.buffer.write(answer)
    return answer.startswith(b"refused")


if __name__ == "__main__":
    sys.exit(main())
