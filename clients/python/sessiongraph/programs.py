"""What a program, as `sessiongraph compile` writes it, is of."""
import hashlib
import os
from typing import Tuple, Union


def digest_of_graph(text: bytes) -> str:
    """Returns the digest of a graph's canonical text (docs/formats.md, Texts that are hashed or tagged)."""
    return hashlib.sha256(b"sg-graph-1" + text).hexdigest()


def digest_of_program(path: Union[str, "os.PathLike[str]"]) -> Tuple[str, str]:
    """Returns the digest of the graph of a program's file, and its role. The node has read the file before, so its form is right."""
    with open(path, "rb") as file:
        head, _, _ = file.read().partition(b"\ntable\n")
    _, role, text = head.split(b"\n", 2)
    return digest_of_graph(text + b"\n"), role.decode().partition(" ")[2]
