"""What the tests share: the program, if it is there, and the files of the tutorial's purchase."""
import os
import pathlib
import subprocess
import sys
import tempfile
from typing import List, Optional, Sequence

HERE = pathlib.Path(__file__).resolve().parent
TOP = HERE.parent.parent.parent
sys.path.insert(0, str(HERE.parent))

PROGRAM: Optional[str] = os.environ.get("PROGRAM")
if PROGRAM is None and subprocess.run([TOP / "tools/is-built"], check=False).returncode == 0:
    PROGRAM = str(TOP / "sessiongraph")

GRAPH = """graph purchase;
role employee;
role boss;
role shop;
var goods: text by employee;
var limit: int by boss;
node wish: employee;
node desk: boss;
node answered: employee;
node over: employee;
node counter: shop;
node home: employee;
edge Ask: wish -> desk writes goods reads goods;
edge Approve: desk -> answered writes limit reads limit;
edge Reject: desk -> over;
edge Order: answered -> counter reads goods limit;
edge Ship: counter -> home;
"""
PORTS = {"ann": 28831, "ben": 28832, "sue": 28833}
ROLES = {"ann": "employee", "ben": "boss", "sue": "shop"}
CAST = ("ann", "ben", "sue")
PAIRS = {("ann", "ben"): "1" * 64, ("ann", "sue"): "2" * 64, ("ben", "sue"): "3" * 64}
FOLDER = tempfile.TemporaryDirectory()


def file(name: str, text: str) -> str:
    """Writes a file of the tests' own folder, and returns its path."""
    path = pathlib.Path(FOLDER.name, name)
    path.write_text(text, encoding="ascii")
    return str(path)


def keys(me: str) -> str:
    """The key file of a principal."""
    lines = [f'me = "{me}"', f'listen = "127.0.0.1:{PORTS[me]}"']
    for pair, key in PAIRS.items():
        if me in pair:
            (peer,) = set(pair) - {me}
            lines += ["[[peer]]", f'name = "{peer}"', f'addr = "127.0.0.1:{PORTS[peer]}"', f'key = "{key}"']
    return file(f"{me}.keys", "\n".join(lines) + "\n")


def compiled(role: str) -> str:
    """The program of a role. If the program is missing, only what this package reads of it."""
    path = pathlib.Path(FOLDER.name, f"{role}.program")
    if not path.exists():
        if PROGRAM is None:
            return file(path.name, f"sg-program 1\nrole {role}\n{GRAPH}table\n")
        with open(path, "wb") as out:
            subprocess.run([PROGRAM, "compile", file("purchase.graph", GRAPH), role], stdout=out, check=True)
    return str(path)


def words(transcript: str) -> Sequence[str]:
    """The program, or its transcript of this name."""
    path, player = HERE / "transcripts" / f"{transcript}.txt", [sys.executable, str(HERE / "transcript.py")]
    if PROGRAM is None:
        return [*player, "play", str(path)]
    return [*player, "record", str(path), PROGRAM] if os.environ.get("RECORD") else [PROGRAM]


def stubs(role: str) -> str:
    """The text of the stubs of a role."""
    made: List[str] = [str(TOP / "tools/stubs"), file("purchase.graph", GRAPH), role]
    return subprocess.run(made, stdout=subprocess.PIPE, text=True, check=True).stdout
