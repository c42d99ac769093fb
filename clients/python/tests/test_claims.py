"""Claims on walks: as the program answers of graphs, and on the walks that it writes in reports and audits."""
import pathlib
import re
import subprocess
import unittest
from typing import Dict, Iterator, List, Tuple

import room
from sessiongraph import claims

EXAMPLES = room.TOP / "examples"


def answered() -> Iterator[Tuple[pathlib.Path, Dict[str, claims.Claim], List[str]]]:
    """Each claims file of the examples, with its claims and the program's lines, written anew if the program is there."""
    for path in sorted(EXAMPLES.glob("**/*.claims")):
        lines = path.with_suffix(".claims-answer").read_text(encoding="ascii").splitlines()
        yield path, claims.read(path.read_text(encoding="ascii")), lines


class Claims(unittest.TestCase):
    def test_a_walk_that_the_program_shows_breaks_its_claim_and_no_shorter_one_does(self) -> None:
        broken = 0
        for path, found, lines in answered():
            told = [re.match(r"claim (\w+) (holds|fails: (.*))$", line) for line in lines if line.startswith("claim ")]
            self.assertEqual([it[1] for it in told if it], list(found), path)
            for it in told:
                assert it is not None
                if it[3]:
                    walk, broken = it[3].split(), broken + 1
                    with self.subTest(f"{path.name} {it[1]}"):
                        self.assertFalse(claims.holds(found[it[1]], walk))
                        self.assertTrue(all(claims.holds(found[it[1]], walk[:end]) for end in range(len(walk))))
        self.assertGreaterEqual(broken, 10)

    def test_claims_that_hold_of_a_graph_hold_of_its_walks(self) -> None:
        walked = 0
        for path, found, lines in answered():
            held = {name: it for name, it in found.items() if f"claim {name} holds" in lines}
            reports = [line for report in path.parent.glob("*.report") for line in report.read_text(encoding="utf-8").splitlines()]
            walks = [it for it in map(claims.walk_of, reports) if it is not None] if path.parent != EXAMPLES / "claims" else []
            made = subprocess.run([room.TOP / "tools/walks", path.with_suffix(".graph"), "12"], stdout=subprocess.PIPE, text=True, check=False)
            walks += [line.partition(": ")[2].split() for line in made.stdout.splitlines() if re.match(r"\w+: (?!\d)", line)]
            for walk in walks:
                walked += 1
                self.assertEqual(claims.broken(held, walk), [], f"{path.name}: {walk}")
        self.assertGreater(walked, 100)

    def test_the_program_answers_so_today(self) -> None:
        if room.PROGRAM is None:
            self.skipTest("the program isn't there")
        for path, _, lines in list(answered())[:4]:
            ran = subprocess.run([room.PROGRAM, "claims", path.with_suffix(".graph"), path], stdout=subprocess.PIPE, text=True, check=False)
            self.assertEqual(ran.stdout.splitlines(), [line for line in lines if line.startswith("claim ")])

    def test_what_is_no_text_of_claims_is_refused(self) -> None:
        right = "claims g; claim a: X Y needs Z since W; # words\nclaim b:X bars X;claim needs: X needs Y;"
        self.assertEqual(claims.read(right)["a"], claims.Claim(["X", "Y"], ["Z"], ["W"], True))
        self.assertEqual(list(claims.read(right)), ["a", "b", "needs"])
        for wrong in ("", "claims g", "claims g; claim a: X;", "claims g; claim a: needs Y;", "claims g; claim a: X needs Y until Z", "claims g; X"):
            with self.assertRaises(ValueError):
                claims.read(wrong)


if __name__ == "__main__":
    unittest.main()
