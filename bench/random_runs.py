#!/usr/bin/env python3
"""Runs bbq-profile over random options and files: status 0, the counts of a count in Python, and a whole trace.

bench/random_runs.py [RUNS [SECONDS]] stops after so many runs (1,000) or seconds (300), whichever is
first, and prints how many it made. It ends with status 1 at the first run that differs.
"""

import collections
import json
import pathlib
import random
import re
import subprocess
import sys
import tempfile
import time

TOP = pathlib.Path(__file__).resolve().parent.parent
SEPARATORS = re.compile(rb"[\t\n\x0b\x0c\r ]+")


def random_text(draw):
    words = draw.choice([0, 1, 5, 100, 3000])
    kinds = draw.choice([1, 3, 50, 10**6])
    parts = []
    for _ in range(words):
        parts.append(b"w%d" % draw.randrange(kinds))
        parts.append(draw.choice([b" ", b"\n", b"\t ", b"\r\n"]))
    return b"".join(parts)


def counts_of(texts):
    counts = collections.Counter(word for text in texts for word in SEPARATORS.split(text) if word)
    lines = [b"%d %s\n" % (counts[word], word) for word in sorted(counts)]
    head = b"words %d distinct %d\n" % (sum(counts.values()), len(counts))
    return head, sorted(lines)


def random_options(draw):
    chosen = {
        "--mode": draw.choice(["retry", "drop"]),
        "--workers": draw.choice([1, 2, 3, 4, 8, 32, 255]),
        "--blocks": draw.choice([2, 3, 8, 256]),
        "--size": draw.choice([1, 2, 16, 64, 1024]),
        "--piece": draw.choice([1, 7, 100, 4096, 65536]),
    }
    names = [name for name in chosen if draw.random() < 0.7]
    draw.shuffle(names)
    return {name: chosen[name] for name in names}


def is_whole(trace, options, words):
    """Where nothing is dropped, each piece stands once and each worker once; else enough of the newest spans."""
    accepted, kept = trace["otherData"]["accepted"], trace["otherData"]["kept"]
    spans = [event for event in trace["traceEvents"] if event["ph"] == "X"]
    pieces = [span["args"] for span in spans if span["cat"] == "piece"]
    workers = sorted(span["tid"] for span in spans if span["cat"] == "worker")
    if len(spans) != kept:
        return False
    if options.get("--mode") == "drop":
        room = (options.get("--blocks", 8) - 1) * options.get("--size", 64)
        return min(accepted, room) <= kept <= accepted
    return (
        kept == accepted
        and sorted(piece["piece"] for piece in pieces) == list(range(len(pieces)))
        and sum(piece["words"] for piece in pieces) == words
        and workers == list(range(1, options.get("--workers", 4) + 1))
    )


def run_once(draw, folder):
    texts = [random_text(draw) for _ in range(draw.randrange(1, 4))]
    names = []
    for index, text in enumerate(texts):
        names.append(f"text{index}.txt")
        (folder / names[-1]).write_bytes(text)
    options = random_options(draw)
    words = [str(word) for option in options.items() for word in option]
    done = subprocess.run([TOP / "bbq-profile", *words, *names], cwd=folder, capture_output=True, check=False)
    head, lines = counts_of(texts)
    out = done.stdout.splitlines(keepends=True)
    same = done.returncode == 0 and out[:1] == [head] and sorted(out[1:]) == lines
    if same:
        trace = json.loads((folder / "trace.json").read_bytes())
        same = is_whole(trace, options, int(head.split()[1]))
    return same, words, done


def main():
    runs = int(sys.argv[1]) if len(sys.argv) > 1 else 1000
    seconds = float(sys.argv[2]) if len(sys.argv) > 2 else 300
    seed = time.time_ns()
    draw = random.Random(seed)
    end = time.monotonic() + seconds
    made = 0
    with tempfile.TemporaryDirectory() as name:
        folder = pathlib.Path(name)
        while made < runs and time.monotonic() < end:
            same, options, done = run_once(draw, folder)
            if not same:
                print(f"seed {seed}, run {made}: {options} status {done.returncode}")
                sys.stderr.buffer.write(done.stderr)
                return 1
            made += 1
    print(f"{made} runs with status 0, equal counts and a whole trace")
    return 0


if __name__ == "__main__":
    sys.exit(main())
