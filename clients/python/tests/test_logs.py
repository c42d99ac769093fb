"""Logs: what is read of them, however they are formatted, and the log file that is made of them."""
import unittest

import room
from sessiongraph import logs

ONE, TWO = "1" * 64, "2" * 64
LOG = f"""2026-11-30 08:00:00,000 sessiongraph.steps {ONE} 1 ann s1 started as employee
INFO:sessiongraph.steps:{ONE} 2 ann s1 sent Ask time 1 to ben as f1 goods="a\\x20lamp"
{TWO} 3 ann s2 started as employee
INFO:sessiongraph.steps:- 4 ann refused bad-time item 1 got 2 least 3
INFO:sessiongraph.play:111111111111 (s1) is left: nothing came for 60 s
{TWO} 1 ann s1 started as employee
x {ONE} 5 ann s1 received Approve time 2 limit=50
{ONE} 6 ann s1 abandoned
{ONE} 7 ann s1 sent Order time 3 to s"""


class Logs(unittest.TestCase):
    def test_events_are_told_apart_by_the_identifiers_of_their_sessions(self) -> None:
        found = logs.read(room.file("ann.log", LOG))
        self.assertEqual(found, {ONE: ['sent Ask 1 goods="a\\x20lamp"', "received Approve 2 limit=50"], TWO: []})
        text = logs.log_file("graph g;\n", {"employee": found, "boss": {ONE: ["received Ask 1"]}}, [ONE, TWO])
        self.assertEqual(text.split("\n")[:7], ["graph {", "graph g;", "}", "session s1", "log employee", *found[ONE]])
        self.assertEqual(text.split("\n")[7:], ["log boss", "received Ask 1", "session s2", "log employee", "log boss", ""])


if __name__ == "__main__":
    unittest.main()
