"""What a walk that breaks a claim shows, and where the claim stands in its text."""
import re
import subprocess

WORDS = ("needs", "bars", "since", "until")


def claims_in(text):
    """Returns the claims of a text by name: the offset of each, its word, and the lists `first`, `second` and `third` around its words."""
    # (a comment becomes spaces, so that offsets stay)
    bare = re.sub(rb"#[^\n]*", lambda it: b" " * len(it[0]), text).decode("latin-1")
    found = {}
    for it in re.finditer(r"\bclaim\s+(\w+)\s*:([^;]*);", bare):
        lists, words = [[]], []
        for word in it[2].split():
            if word in WORDS:
                words.append(word)
                lists.append([])
            else:
                lists[-1].append(word)
        found[it[1]] = it.start(), words[0], lists[0], lists[1], lists[2] if len(lists) > 2 else []
    return found


def either(labels):
    return labels[0] if len(labels) == 1 else f"{', '.join(labels[:-1])} or {labels[-1]}"


def shown_by(claim, walk):
    """Returns a sentence: what the last label of a walk has before it, and shouldn't, or lacks."""
    _, word, first, second, third = claim
    last, before = walk[-1], walk[:-1]
    if word == "needs":
        reset = max((at for at, label in enumerate(before) if label in third and label not in second), default=None)
        behind = f" after {before[reset]}, its step {reset + 1}" if reset is not None else ""
        return f"On this walk {last}, its last step, has no {either(second)} before it{behind}."
    at = max(at for at, label in enumerate(before) if label in first)
    between = f", and no {either(third)} between" if third else ""
    return f"On this walk {last}, its last step, comes behind {before[at]}, its step {at + 1}{between}."


def broken(program, graph, claims):
    """Returns the text of claims, and for each that fails its offset and what its walk shows, in their order."""
    ran = subprocess.run([program, "claims", graph, claims], stdin=subprocess.DEVNULL, stdout=subprocess.PIPE, stderr=subprocess.DEVNULL)
    with open(claims, "rb") as it:
        text = it.read()
    found, said = claims_in(text), []
    for name, walk in re.findall(r"^claim (\w+) fails: (.*)$", ran.stdout.decode(), re.M):
        said.append((found[name][0], shown_by(found[name], walk.split(" "))))
    return text, said
