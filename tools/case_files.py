"""Reads tools/cases: inputs, most of them wrong, each with what the program answers and with what `./sessiongraph` adds to that at a terminal.

A file of cases is read line by line. A line that begins with `#`, and a blank line, says nothing.

    let NAME                the lines of text that follow are called NAME
    case WORDS..            a case begins; the words say what it is about
    words WORD..            the words that the program is given; without this line those of the case before
    file NAME               the case's file is called so, and not `f`
    beside FILE NAME        in this case and those after it the folder has this file too, with the text that is called NAME

How the program is run, in a folder with these files alone:

    out full, err full      standard output, or standard error, is a device that takes nothing
    memory N                it may have N KiB of memory
    seedless                the system gives it no random bytes
    asks LINE               the next line of standard input, which has no others; if none is given, it is empty
    input folder            standard input is a folder, which can't be read
    input unready           standard input is a pipe that doesn't wait, so that it fails behind these lines

What it answers:

    status N                the exit status; 0 if it isn't given
    says LINE               the one line on standard error; nothing if it isn't given
    reports LINE            a line that must be among those on standard output; if it isn't given, with a status other than 0, there are none
    whole                   the lines that `reports` says are all of standard output, in this order
    answers LINE            the next line on standard output, which has no others, whatever the status; `<digest>` in it is 64 hexadecimal digits
    leaves FILE NAME        then the folder has this file, with the text that is called NAME

What is added at a terminal. A case without these lines says nothing of that:

    row NAME                in the end come the sentences of this row of docs/refusals.md
    no row NAME             they don't come, since what is said of the place says all
    place LINE COLUMN TEXT  the place is in the case's file, in this line and column, where this text stands; no text is the end of the line
    told LINE COLUMN TEXT   the same, of what is told before a run (tools/check-script)
    here WORDS..            what is said of just this place has these words; if there is no such line, nothing is said of it
    step N SENTENCE         the sentence about step N, which a replay refuses
    nothing                 nothing is added

Lines of text begin with two spaces, which don't count, and belong to the case's file, or to the text that is called by a name. In them `@NAME`
alone on a line is the text of that name; `{N:TEXT}` is TEXT N times, and `{M..N:TEXT}` once for each number from M to N; in TEXT, `%` is the number,
counted from 0 or from M, `%+1` is one more, and `%*2+1` one more than twice the number, and TEXT may have repetitions, which come first; `^` is a line
end, and `<hh>` the byte with these two hexadecimal digits. A line of text that ends with `~` has no line end. Repetitions may stand in what `says`,
`reports` and `answers` say, too, all of this but `@` in what `asks` says, and all but `@` and `~` in a word of `words`, and in what `place`, `told` and
`here` say. `says @NAME` is the first line of that text.
"""
import glob
import os
import re
import resource
import subprocess
import tempfile

TOP = os.path.dirname(os.path.dirname(os.path.realpath(__file__)))
# What stands before the program's arguments if the system gives it no random bytes.
SEEDLESS = ["strace", "-o", "/dev/null", "-e", "inject=getrandom:error=EIO"]
REPETITION = re.compile(r"\{(\d+)(?:\.\.(\d+))?:([^{}]*)\}")


def repeated(found):
    """Returns the text of one repetition."""
    first, last, text = found[1], found[2], found[3]
    numbers = range(int(first)) if last is None else range(int(first), int(last) + 1)
    if "%" not in text:
        return text * len(numbers)
    return "".join(re.sub(r"%(?:\*(\d+))?(?:\+(\d+))?", lambda form: str(number * int(form[1] or 1) + int(form[2] or 0)), text) for number in numbers)


def expanded(text):
    """Returns the text with its repetitions, inner ones first."""
    more = REPETITION.sub(repeated, text)
    return more if more == text else expanded(more)


def plain_bytes(text):
    """Returns the bytes of a text without repetitions."""
    pieces = re.split(r"<([0-9a-f]{2})>", text.replace("^", "\n"))
    return b"".join(bytes.fromhex(piece) if place % 2 else piece.encode() for place, piece in enumerate(pieces))


def as_bytes(text):
    """Returns the bytes of a line of text."""
    if re.search(r"\{\d[^{}]*\{\d", text):
        text = expanded(text)
    found, end = [], 0
    for it in REPETITION.finditer(text):
        # (what is the same each time is repeated as bytes, since it may be long)
        inner = plain_bytes(it[3]) * int(it[1]) if it[2] is None and "%" not in it[3] else plain_bytes(repeated(it))
        found += [plain_bytes(text[end : it.start()]), inner]
        end = it.end()
    return b"".join([*found, plain_bytes(text[end:])])


def as_text(text):
    return as_bytes(text).decode()


class Text:
    """Lines that are called by a name."""

    def __init__(self, texts):
        self.texts, self.lines = texts, []

    def data(self):
        """Returns the bytes."""
        return b"".join(
            self.texts[line[1:]].data() if re.fullmatch("@[A-Z]+", line) else as_bytes(line[:-1] if line.endswith("~") else line + "\n") for line in self.lines
        )


class Case(Text):
    """What is tried, what must be answered, and what must be added at a terminal; `table` and `line` are where it stands."""

    def __init__(self, table, line, name, texts, words, beside):
        super().__init__(texts)
        self.table, self.line, self.name, self.words, self.beside = table, line, name, words, dict(beside)
        self.file, self.full, self.memory, self.seedless = "f", set(), None, False
        self.status, self.says, self.reports, self.whole, self.leaves = 0, None, [], False, {}
        self.asks, self.answers, self.source, self.ends = [], [], None, []
        self.row, self.row_comes, self.place, self.told, self.here, self.steps, self.nothing = None, True, None, None, [], {}, False

    def __str__(self):
        return f"{self.table} line {self.line}: {self.name}"

    def files(self):
        """Returns the files of the folder, as bytes by their names."""
        return {**{name: self.texts[text].data() for name, text in self.beside.items()}, self.file: self.data()}

    def lay(self, folder):
        """Writes the files into a folder."""
        for name, data in self.files().items():
            with open(os.path.join(folder, name), "wb") as file:
                file.write(data)

    def outputs(self, out, err):
        """Returns the two outputs by their names, or in their place what takes nothing."""
        return {name: open("/dev/full", "wb") if short in self.full else file for name, short, file in (("stdout", "out", out), ("stderr", "err", err))}

    def input(self, folder):
        """Returns what is to be standard input, open for reading; the case's files are in the folder."""
        if self.source == "folder":
            return os.open(folder, os.O_RDONLY)
        if self.source == "unready":
            # (its other end stays open, since a pipe without one is at its end)
            self.ends += os.pipe()
            os.write(self.ends[-1], b"".join(self.asks))
            os.set_blocking(self.ends[-2], False)
            return self.ends[-2]
        file = tempfile.TemporaryFile()
        file.write(b"".join(self.asks))
        file.seek(0)
        return file

    def limit(self):
        """Limits this process, as the case has it."""
        if self.memory is not None:
            resource.setrlimit(resource.RLIMIT_AS, (self.memory * 1024, self.memory * 1024))

    def differs(self, status, out, said):
        """Returns what differs in an answer, as text, from the one that must come, or None."""
        if status != self.status:
            return f"status {status} and not {self.status}, with: {said.strip()[:200]}"
        if said != (self.says + "\n" if self.says is not None else ""):
            return f"says {said[:200]!r} and not {self.says!r}"
        if self.answers or self.asks:
            return self.answers_differ(out)
        if status != 0 and not self.reports and out:
            return f"standard output has {out[:100]!r}"
        got = out.split("\n")
        missing = [line for line in self.reports if line not in got]
        if missing:
            return f"no line {missing[0]!r} in " + repr(out[:600] if len(out) < 600 else out[:300] + " .. " + out[-300:])
        if self.whole and got != self.reports + [""]:
            return f"standard output has other lines too, or in another order: {out[:600]!r}"
        return None

    def answers_differ(self, out):
        """Returns what differs in the lines on standard output, as text, from the answers that must come, or None."""
        lines = out.split("\n")
        for number, (got, wanted) in enumerate(zip(lines, [*self.answers, ""]), 1):
            if not re.fullmatch("[0-9a-f]{64}".join(map(re.escape, wanted.split("<digest>"))), got):
                return f"answer {number} is {got[:200]!r} and not {wanted[:200]!r}"
        return None if len(lines) == len(self.answers) + 1 else f"{len(lines) - 1} answers come, and not {len(self.answers)}: {out[-200:]!r}"

    def left(self, folder):
        """Returns which file of the folder isn't as it must be after a run, as a sentence, or None."""
        for name, text in self.leaves.items():
            path = os.path.join(folder, name)
            if not os.path.isfile(path):
                return f"there is no {name}"
            with open(path, "rb") as file:
                if file.read() != self.texts[text].data():
                    return f"{name} has other bytes than {text}"
        return None


def placed(rest):
    """Returns a place: the line's number, the column and the text that stands there."""
    line, column, text = (rest + " ").split(" ", 2)
    return int(line), int(column), as_text(text[:-1])


class Reader:
    """Reads one file of cases."""

    def __init__(self, path):
        self.table, self.cases, self.current, self.texts, self.words, self.beside = os.path.relpath(path, TOP), [], None, {}, [], {}
        with open(path, encoding="utf-8") as file:
            for number, line in enumerate(file, 1):
                line = line.rstrip("\n")
                if line.startswith("  "):
                    self.current.lines.append(line[2:])
                elif line and not line.startswith("#") and not self.take(number, *line.partition(" ")[::2]):
                    raise ValueError(f"{path} line {number}: {line}")
        for case in self.cases:
            if case.status == 0 and not case.reports and not case.whole and not case.asks:
                raise ValueError(f"{path} line {case.line}: the case asks for nothing")
            if case.here and not (case.row or case.place or case.told):
                raise ValueError(f"{path} line {case.line}: the case has words of no place")

    def take(self, number, word, rest):
        """Takes a line that is no text. Returns whether it has one of the forms."""
        case = self.current
        if word == "let":
            self.current = self.texts[rest] = Text(self.texts)
        elif word == "case":
            self.current = Case(self.table, number, rest, self.texts, self.words, self.beside)
            self.cases.append(self.current)
        elif not isinstance(case, Case):
            return False
        elif word == "words":
            case.words = self.words = [as_bytes(it) for it in rest.split()]
        elif word == "beside":
            self.beside.update([rest.split()])
            case.beside.update(self.beside)
        elif word in ("out", "err") and rest == "full":
            case.full.add(word)
        elif word in ("file", "row"):
            setattr(case, word, rest)
        elif word == "no" and rest.startswith("row "):
            case.row, case.row_comes = rest[4:], False
        elif word in ("status", "memory"):
            setattr(case, word, int(rest))
        elif word == "says":
            case.says = self.texts[rest[1:]].lines[0] if rest.startswith("@") else expanded(rest)
        elif word == "asks":
            case.asks.append(as_bytes(rest[:-1] if rest.endswith("~") else rest + "\n"))
        elif word == "answers":
            case.answers.append(expanded(rest))
        elif word == "input" and rest in ("folder", "unready"):
            case.source = rest
        elif word == "reports":
            case.reports.append(expanded(rest))
        elif word == "leaves":
            case.leaves.update([rest.split()])
        elif word in ("place", "told"):
            setattr(case, word, placed(rest))
        elif word == "here":
            case.here.append(as_text(rest))
        elif word == "step":
            step, _, sentence = rest.partition(" ")
            case.steps[int(step)] = sentence
        elif word in ("whole", "seedless", "nothing") and not rest:
            setattr(case, word, True)
        else:
            return False
        return True


def read(path):
    """Returns the cases of a file."""
    return Reader(path).cases


def may_trace():
    """Returns whether strace is there, and may trace: without it no case can be tried that is seedless."""
    try:
        return subprocess.run([SEEDLESS[0], "-o", "/dev/null", "true"], stderr=subprocess.DEVNULL).returncode == 0
    except OSError:
        return False


def tables():
    """Returns the files of cases."""
    return sorted(glob.glob(f"{TOP}/tools/cases/*.cases"))


def every():
    """Returns the cases of all files."""
    return [case for path in tables() for case in read(path)]
