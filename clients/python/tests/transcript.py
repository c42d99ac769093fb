"""Stands for the program if that is missing, by a transcript of it; and makes such a transcript if it is there.

    transcript.py play FILE WORD ..             answers as the transcript has it; the lines that come must be those that it has
    transcript.py record FILE PROGRAM WORD ..   runs the program with these arguments, and writes what it is given and answers

A transcript has a line `> LINE` for what the program is given, `< LINE` for its answer, `! STATUS LINE` for its end and what it says then. How long a
`recv` waits may differ. The exit status is the program's, or 99 if a line comes that the transcript doesn't have.
"""
import re
import subprocess
import sys
import time
from typing import List


def same(wanted: str, got: str) -> bool:
    """Whether a line is the one that was recorded."""
    return wanted == got or (re.fullmatch(r"recv \d+", wanted) is not None and re.fullmatch(r"recv \d+", got) is not None)


def play(path: str) -> int:
    with open(path, encoding="ascii") as file:
        lines, got = file.read().split("\n")[:-1], ""
    for kind, line in ((it[0], it[2:]) for it in lines):
        if kind == ">":
            got = sys.stdin.readline().rstrip("\n")
            if not same(line, got):
                print(f"{got!r} came where the transcript has {line!r}", file=sys.stderr)
                return 99
        elif kind == "<":
            if line == "quiet":
                time.sleep(int(got.split()[1]) / 1_000)
            print(line, flush=True)
        else:
            status, _, said = line.partition(" ")
            # (one that is refused doesn't wait for the end of its input)
            if status == "0" and sys.stdin.readline():
                print("more came than the transcript has", file=sys.stderr)
                return 99
            sys.stderr.write(f"{said}\n" if said else "")
            return int(status)
    return 99


def record(path: str, words: List[str]) -> int:
    pipe = subprocess.PIPE
    with open(path, "w", encoding="ascii") as file, subprocess.Popen(words, stdin=pipe, stdout=pipe, stderr=pipe, text=True) as it:
        assert it.stdin and it.stdout and it.stderr
        for line in sys.stdin:
            file.write(f"> {line}")
            try:
                it.stdin.write(line)
                it.stdin.flush()
            except BrokenPipeError:
                break
            answer = it.stdout.readline()
            if not answer:
                break
            file.write(f"< {answer}")
            file.flush()
            print(answer, end="", flush=True)
        try:
            it.stdin.close()
        except BrokenPipeError:
            pass
        status, said = it.wait(), it.stderr.read().strip().split("\n")[0]
        file.write(f"! {status} {said}".rstrip() + "\n")
        sys.stderr.write(f"{said}\n" if said else "")
        return status


if __name__ == "__main__":
    sys.exit(play(sys.argv[2]) if sys.argv[1] == "play" else record(sys.argv[2], sys.argv[3:]))
