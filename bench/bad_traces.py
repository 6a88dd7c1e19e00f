#!/usr/bin/env python3
"""Gives bbq-trace texts that are hard to read, and prints a table: the input, its size in bytes, the status and message that it ended with, seconds of the processor, and peak memory in MB, of which up to 40 are this script's own.

With the word 'large' it reads besides a text of 268,435,456 bytes, which takes some 7 GB of memory.
"""

import os
import sys
import tempfile
from pathlib import Path

TOP = Path(__file__).resolve().parent.parent
MOST = 268_435_456
HEAD = b'{"otherData":{"accepted":0,"kept":0},"traceEvents":['


def piece(tid, index):
    """A piece's span without words."""
    return b'{"ph":"X","cat":"piece","tid":%d,"ts":%d,"dur":1,"args":{"file":0,"piece":%d,"words":0}}' % (tid, index, index)


def trace(length):
    """A trace of pieces of 255 workers that is so long, filled up with blanks; the workers' own spans are missing."""
    count = (length - 200) // 100
    events = b",".join(piece(1 + index % 255, index) for index in range(count))
    text = b'{"otherData":{"accepted":%d,"kept":%d},"traceEvents":[' % (count, count) + events + b"]}"
    return text + b" " * (length - len(text))


def nested(levels):
    """Lists in lists."""
    return b"[" * levels + b"]" * levels


TEXTS = [
    ("an empty file", lambda: b""),
    ("a byte order mark before a trace", lambda: b"\xef\xbb\xbf" + HEAD + b"]}"),
    ("a byte that is no UTF-8", lambda: HEAD + b'{"ph":"\xff"}]}'),
    ("half of a surrogate pair", lambda: HEAD + b'{"ph":"\\ud800"}]}'),
    ("members that stand twice", lambda: b'{"traceEvents":1,"otherData":2,' + HEAD[1:] + b"]}"),
    ("a number of 400 digits", lambda: HEAD + b'{"ph":"M","pid":' + b"9" * 400 + b"}]}"),
    ("a number of 10,000,000 digits", lambda: HEAD + b'{"ph":"M","pid":' + b"9" * 10_000_000 + b"}]}"),
    ("lists in lists, 126 deep, in an event", lambda: HEAD[:-1] + b"[" + b'{"ph":"M","args":' + nested(124) + b"}]}"),
    ("lists in lists, 1,000 deep", lambda: nested(1_000)),
    ("lists in lists, 10,000,000 deep", lambda: nested(10_000_000)),
    ("an open list of 10,000,000 numbers", lambda: b"[" + b"1," * 10_000_000),
    ("a text of 20,000,000 letters", lambda: b'"' + b"a" * 20_000_000 + b'"'),
    ("a member 1,000,000 times", lambda: b"{" + b'"a":1,' * 1_000_000 + b'"traceEvents":[],"otherData":{"accepted":0,"kept":0}}'),
    ("1,000,000 members of other names", lambda: b"{" + b"".join(b'"%d":1,' % n for n in range(1_000_000)) + b'"traceEvents":[],"otherData":{"accepted":0,"kept":0}}'),
    ("a trace of 10,000,000 bytes by 255 workers", lambda: trace(10_000_000)),
    ("one of 20,000,000 bytes", lambda: trace(20_000_000)),
    ("one of 40,000,000 bytes", lambda: trace(40_000_000)),
    ("blanks, a byte more than is read", lambda: b" " * (MOST + 1)),
]
LARGE = [("a trace of 268,435,456 bytes", lambda: trace(MOST))]


def run(name):
    """The status with which the program ends, seconds of the processor, and its peak memory in MB."""
    program = TOP / "crates/bbq_trace/out/bbq_trace"
    child = os.posix_spawn(program, [program, name], os.environ, file_actions=[(os.POSIX_SPAWN_OPEN, 1, "/dev/null", os.O_WRONLY, 0), (os.POSIX_SPAWN_OPEN, 2, "said", os.O_WRONLY | os.O_CREAT | os.O_TRUNC, 0o600)])
    _, status, used = os.wait4(child, 0)
    return os.waitstatus_to_exitcode(status), used.ru_utime + used.ru_stime, used.ru_maxrss / 1024


def main():
    texts = TEXTS + (LARGE if "large" in sys.argv else [])
    with tempfile.TemporaryDirectory() as folder:
        os.chdir(folder)
        for name, make in texts:
            Path("text").write_bytes(make())
            status, seconds, memory = run("text")
            said = Path("said").read_text().strip().removeprefix("bbq-trace: ")
            print(f"| {name} | {Path('text').stat().st_size:,} | {status} {said} | {seconds:.2f} | {memory:.0f} |", flush=True)


sys.exit(main())
