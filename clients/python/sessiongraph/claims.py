"""Whether claims hold of a walk (docs/claims.md). `sessiongraph claims` says whether they hold of a graph, and so of all its walks."""
import re
from typing import Dict, Iterable, List, NamedTuple, Optional, Sequence

FORM = re.compile(r"claim (\w+) : ((?:\w+ )+?)(needs|bars) ((?:\w+ )+?)(?:(since|until) ((?:\w+ )+))?;")


class Claim(NamedTuple):
    """A claim: wherever a label of `labels` stands on a walk, one of `earlier` stands before it (`wanted`) or none does, with none of `between`
    between."""

    labels: Sequence[str]
    earlier: Sequence[str]
    between: Sequence[str]
    wanted: bool


def read(text: str) -> Dict[str, Claim]:
    """Returns the claims of a text, by their names. Raises ValueError if it is no text of claims; whether its labels are the graph's, the program
    says."""
    plain = " ".join(re.findall(r"\w+|[:;]|\S", re.sub(r"#[^\n]*", "", text)))
    if not re.fullmatch(rf"claims \w+ ;(?: {FORM.pattern})*", plain):
        raise ValueError("no text of claims")
    found = {}
    for name, first, verb, second, _, third in FORM.findall(plain):
        labels, earlier = (first, second) if verb == "needs" else (second, first)
        found[name] = Claim(labels.split(), earlier.split(), third.split(), verb == "needs")
    return found


def holds(claim: Claim, walk: Iterable[str]) -> bool:
    """Returns whether a claim holds of a walk, which is a list of labels from the graph's start on."""
    stands = False
    for label in walk:
        if label in claim.labels and stands != claim.wanted:
            return False
        stands = label in claim.earlier or (stands and label not in claim.between)
    return True


def broken(claims: Dict[str, Claim], walk: Sequence[str]) -> List[str]:
    """Returns the names of the claims that don't hold of a walk, in their order."""
    return [name for name, claim in claims.items() if not holds(claim, walk)]


def walk_of(line: str) -> Optional[List[str]]:
    """Returns the labels of a line `walk SESSION: ..`, as audits and replays write it, or None if the line is another."""
    found = re.fullmatch(r"walk \w+:(.*)", line.strip())
    return [re.sub(r"\(.*", "", it).lstrip("*") for it in found[1].split()] if found else None
