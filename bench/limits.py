"""What the benches compare with, the compressions of SHA-256 in what is tagged and hashed, and passes over bytes; and how they run a program.

    python3 bench/limits.py NANOSECONDS SCHEDULE..

prints what the hashes of each step of a schedule take if a compression takes so many nanoseconds.
"""
import os
import pathlib
import subprocess
import sys
import tempfile
import time

sys.dont_write_bytecode = True
sys.path.insert(0, str(pathlib.Path(__file__).resolve().parent.parent / 'tools'))
import model


def blocks(length):
    """The blocks of 64 bytes that SHA-256 hashes for so many bytes (FIPS 180-4 section 5.1.1)."""
    return (length + 9 + 63) // 64


def of_tag(length):
    """The compressions of a tag of a text of so many bytes, under a key whose two blocks are hashed already (RFC 2104 section 4)."""
    return blocks(length) + 1


def of_notes(notes):
    """How many tags, digests and compressions there are in what a step notes."""
    tagged = [len(text) for _, text in notes.made + notes.found]
    hashed = [len(text) for text in notes.hashed]
    return len(tagged), len(hashed), sum(map(of_tag, tagged)) + sum(map(blocks, hashed))


def of_schedule(path):
    """Each step of a schedule as its words, with how many tags, digests and compressions it takes."""
    run = model.run_of(pathlib.Path(path).read_bytes())
    return [(' '.join(words[:3]), *of_notes(notes)) for words, notes in zip(steps_of(path), run.notes)]


def steps_of(path):
    """The words of each step of a schedule."""
    lines = [line.split() for line in pathlib.Path(path).read_text().splitlines()]
    return [words for words in lines if words and words[0] in ('start', 'act', 'abandon', 'deliver', 'craft')]


# A process of its own, since the peak of a child begins with that of the process that made it.
MEASURE = """import os, subprocess, sys
with open(sys.argv[1], 'wb') as out:
    child = subprocess.Popen(sys.argv[2:], stdout=out)
_, status, used = os.wait4(child.pid, 0)
print(status, used.ru_utime + used.ru_stime, used.ru_maxrss / 1024)
"""


def ran(words, folder=None, end=0):
    """Runs a program in a folder: what it printed, the seconds of a processor that it took, and its peak memory in MiB. It must end with this status."""
    with tempfile.NamedTemporaryFile() as out:
        told = subprocess.run([sys.executable, '-c', MEASURE, out.name, *words], cwd=folder, stdout=subprocess.PIPE, text=True, check=True).stdout
        status, spent, peak = told.split()
        if os.waitstatus_to_exitcode(int(status)) != end:
            sys.exit(f'{words}: status {os.waitstatus_to_exitcode(int(status))}')
        return out.read(), float(spent), float(peak)


def least(work, times=5):
    """The least of the seconds of a processor that some runs of some work took."""
    took = []
    for _ in range(times):
        begun = time.process_time()
        work()
        took.append(time.process_time() - begun)
    return max(min(took), 1e-9)


def looked(data):
    """The seconds of a look at each byte: a table's entry for each, in a loop that C runs (Python's `bytes.translate`)."""
    table = bytes(range(256))
    return least(lambda: data.translate(table))


def copied(data):
    """The seconds of a copy of the bytes."""
    return least(lambda: bytearray(data))


def main():
    """Prints the hashes of each step of some schedules, and their sums."""
    rate = float(sys.argv[1]) / 1000
    for path in sys.argv[2:]:
        steps = of_schedule(path)
        for words, tags, digests, compressions in steps:
            print(f'{words:28} {tags:3} tags {digests:3} digests {compressions:4} compressions {compressions * rate:7.2f} microseconds')
        sums = [sum(step[place] for step in steps) for place in (1, 2, 3)]
        print(f'{pathlib.Path(path).name:28} {sums[0]:3} tags {sums[1]:3} digests {sums[2]:4} compressions {sums[2] * rate:7.2f} microseconds')


if __name__ == '__main__':
    main()
