"""The node: each of its calls, what it refuses, and how it ends; against the program, or against transcripts of it."""
import logging
import os
import re
import signal
import socket
import unittest
from typing import Any, Callable

import room
from sessiongraph import Node, Quiet, errors, events, values


def node(name: str, me: str = "ann", **more: Any) -> Node:
    return Node(room.keys(me), room.compiled(room.ROLES[me]), program=room.words(name), **more)


class Calls(unittest.TestCase):
    def refused(self, kind: type, call: Callable[[], object]) -> Any:
        with self.assertRaises(kind) as caught:
            call()
        return caught.exception

    def test_a_session_from_its_start_to_its_end(self) -> None:
        with node("session") as ann, self.assertLogs("sessiongraph.steps", logging.INFO) as logged:
            started = ann.start("purchase", room.CAST, version=2)
            self.assertEqual((started.number, started.me, started.session, started.role), (1, "ann", "s1", "employee"))
            self.assertEqual(ann.turn("s1"), events.Turn("s1", "wish", {"Ask": {"goods": "text"}}))
            sent = ann.act("s1", "Ask", goods='a "grün" lamp\\')
            self.assertEqual((sent.label, sent.time, sent.to, sent.frame, sent.values, sent.unsent), ("Ask", 1, "ben", 1, {"goods": 'a "grün" lamp\\'}, False))
            self.assertEqual(ann.turn("s1"), events.Waits("s1"))
            self.assertEqual(ann.again("s1"), events.Again(1, "ben", False))
            self.assertRegex(ann.id("s1"), "[0-9a-f]{64}")
            self.assertEqual(ann.abandon("s1").session, "s1")
            self.assertEqual(ann.turn("s1"), events.Over("s1"))
        self.assertEqual(len(logged.output), 3)
        for text, session in zip(logged.output, ["started", "sent", "abandoned"]):
            self.assertIn(f"{ann.id('s1')} ", text)
            self.assertIn(f" ann s1 {session}", text)

    def test_each_refusal_of_a_call_is_raised_by_its_name(self) -> None:
        with node("refusals") as ann:
            ann.start("purchase", room.CAST)
            self.refused(errors.BadCast, lambda: ann.start("purchase", ("ann", "ben")))
            self.refused(errors.BadCast, lambda: ann.start("purchase", ("ben", "ann", "sue")))
            self.assertEqual(self.refused(errors.UnknownPeer, lambda: ann.start("purchase", ("ann", "ben", "eve"))).peer, "eve")
            self.refused(errors.NoSuchLabel, lambda: ann.act("s1", "Order"))
            self.assertEqual(self.refused(errors.BadValues, lambda: ann.act("s1", "Ask")).variable, "goods")
            self.assertEqual(self.refused(errors.BadValues, lambda: ann.act("s1", "Ask", goods=1)).variable, "goods")
            ann.act("s1", "Ask", goods="lamp")
            self.refused(errors.NotYourTurn, lambda: ann.act("s1", "Ask", goods="lamp"))
            ann.abandon("s1")
            self.refused(errors.UnknownSession, lambda: ann.abandon("s1"))

    def test_what_can_not_be_meant_is_told_and_changes_nothing(self) -> None:
        with node("wrong") as ann:
            self.refused(errors.UnknownHere, lambda: ann.turn("s1"))
            ann.start("purchase", room.CAST)
            self.refused(errors.UnknownWord, lambda: ann.start("sale", room.CAST))
            self.refused(errors.UnknownWord, lambda: ann.act("s1", "Asks"))
            self.refused(errors.UnknownWord, lambda: ann.act("s1", "Ask", good="lamp"))
            self.refused(errors.WrongForm, lambda: ann.turn("1"))
            self.refused(ValueError, lambda: ann.turn("s1\nquit"))
            self.refused(errors.WrongForm, lambda: ann.start("purchase", room.CAST, version=3))
            self.refused(errors.GivenTwice, lambda: ann._step("act s1 Ask goods=1 goods=1", events.Sent))
            self.refused(errors.NothingToSend, lambda: ann.again("s1"))
            for wrong in ("a lamp", "", "ä", "1", "a" * 33):
                self.refused(ValueError, lambda: ann.act("s1", wrong))
            self.refused(TypeError, lambda: ann.act("s1", "Ask", goods=True))
            self.refused(ValueError, lambda: ann.act("s1", "Ask", goods="a" * 1_025))
            self.refused(ValueError, lambda: ann.act("s1", "Ask", goods=2**63))
            self.assertIsInstance(ann.turn("s1"), events.Turn)

    def test_a_wait_ends_by_a_frame_or_by_its_limit(self) -> None:
        with node("waits") as ann:
            self.refused(Quiet, lambda: ann.recv(0))
            self.refused(Quiet, lambda: ann.receive(0.2))
            with socket.socket(socket.AF_INET, socket.SOCK_DGRAM) as stranger:
                stranger.sendto(b"noise", ("127.0.0.1", room.PORTS["ann"]))
            event = ann.recv(10)
            self.assertIsInstance(event, events.Refused)
            assert isinstance(event, events.Refused)
            self.assertIsInstance(event.refusal, errors.Malformed)
            self.assertEqual(getattr(event.refusal, "at"), 0)

    def test_two_of_them_talk(self) -> None:
        with node("ann") as ann, node("ben", "ben") as ben:
            session = ann.start("purchase", room.CAST).session
            ann.act(session, "Ask", goods="grün")
            asked = ben.receive(60)
            self.assertEqual((asked.label, asked.time, asked.values), ("Ask", 1, {"goods": "grün"}))
            if room.PROGRAM is not None and "RECORD" not in os.environ:
                # (each transcript has an identifier of its own)
                self.assertEqual(ann.id(session), ben.id(asked.session))
            self.assertEqual(ben.turn(asked.session), events.Turn("s1", "desk", {"Approve": {"limit": "int"}, "Reject": {}}))
            ben.act(asked.session, "Approve", {"limit": -5})
            self.assertEqual(ann.receive(60).values, {"limit": -5})
            ann.abandon(session)


class Ends(unittest.TestCase):
    def test_it_ends_with_status_0(self) -> None:
        it = node("end")
        self.assertIsNone(it.returncode)
        self.assertEqual((it.close(), it.close(), it.returncode), (0, 0, 0))
        with self.assertRaises(ValueError):
            it.turn("s1")

    def test_one_that_is_killed_says_so(self) -> None:
        with node("killed") as it:
            it.kill()
            with self.assertRaises(errors.Ended) as caught:
                it.turn("s1")
            self.assertEqual(caught.exception.status, -signal.SIGKILL)

    def test_one_that_never_answers_is_killed(self) -> None:
        with self.assertRaises(errors.NoAnswer):
            Node("keys", program=["sh", "-c", "exec sleep 60"], patience=0.2)
        with self.assertRaises(FileNotFoundError):
            Node("keys", program="/no/such/program")

    def test_each_file_that_is_refused_is_raised_by_its_name(self) -> None:
        keys, program = room.keys("ann"), room.compiled("employee")
        wrong = [
            (errors.KeysNotToml, [room.file("noise", "["), program]),
            (errors.KeysEntry, [room.file("no.keys", ""), program]),
            (errors.ProgramMalformed, [keys, keys]),
            (errors.ProgramTwice, [keys, program, program]),
            (errors.NoSuchFile, [keys, "/no/such/file"]),
            (errors.FileFailed, [keys, room.FOLDER.name]),
            (errors.UsageRefused, ["-"]),
        ]
        for number, (kind, paths) in enumerate(wrong):
            with self.subTest(kind), self.assertRaises(kind):
                Node(*paths, program=room.words(f"refused-{number}"))
        with self.assertRaises(errors.LedgerNotMade):
            Node(keys, program, program=room.words("refused-ledger"), ledger=program)

    def test_a_port_that_is_taken(self) -> None:
        keys, program = room.keys("ann"), room.compiled("employee")
        with socket.socket(socket.AF_INET, socket.SOCK_DGRAM) as other:
            other.bind(("127.0.0.1", room.PORTS["ann"]))
            with self.assertRaises(errors.LinkNotOpened):
                Node(keys, program, program=room.words("taken"))


class Interrupted(unittest.TestCase):
    def test_what_an_interrupted_call_asked_for_is_not_lost(self) -> None:
        """A signal comes while a frame is waited for. What comes then is given by the next wait."""
        if room.PROGRAM is None:
            self.skipTest("the program isn't there")

        class Stop(Exception):
            pass

        def stops(*_: object) -> None:
            raise Stop

        before = signal.signal(signal.SIGALRM, stops)
        try:
            with node("") as ann:
                signal.setitimer(signal.ITIMER_REAL, 0.5)
                with self.assertRaises(Stop):
                    ann.recv(600)
                with socket.socket(socket.AF_INET, socket.SOCK_DGRAM) as stranger:
                    stranger.sendto(b"noise", ("127.0.0.1", room.PORTS["ann"]))
                with self.assertRaises(errors.UnknownHere):
                    ann.turn("s1")
                self.assertIsInstance(ann.recv(60), events.Refused)
        finally:
            signal.signal(signal.SIGALRM, before)


class Names(unittest.TestCase):
    def test_each_refusal_of_the_reference_has_its_exception(self) -> None:
        text = (room.TOP / "docs/reference.md").read_text(encoding="utf-8")
        rows = [row for part in text.split("## What a ")[1:] for row in re.findall(r"^\| (`[^|]*) \|", part, re.M)]
        reasons = [it for row in rows for it in re.findall(r"`([^`]+)`", row)]
        self.assertGreater(len(reasons), 18)
        for reason in reasons:
            text = re.sub(r"\b(N|I|G|L)\b", "7", reason).replace("NAME", "eve").replace("VAR", "goods")
            with self.subTest(reason):
                self.assertEqual(str(errors.refusal(text)), text)
        self.assertEqual({it.split()[0] for it in reasons}, set(errors.REFUSALS) - {""})
        for wrong in ("malformed", "no-frame", "malformed at x", "joined twice", ""):
            with self.assertRaises(errors.Strange):
                errors.refusal(wrong)

    def test_each_end_that_can_come_has_its_exception(self) -> None:
        text = (room.TOP / "docs/refusals.md").read_text(encoding="utf-8")
        rows = set(re.findall(r"^\| `([^`]+)` \|", text, re.M))
        self.assertLessEqual({it.row for it in errors.ENDS if it.row}, rows)

    def test_values_are_read_as_they_are_spelled(self) -> None:
        for value in (0, -1, 2**63 - 1, -(2**63), "", "a b", '"\\', "grün ☂", "\x00\n", "\\x41"):
            self.assertEqual(values.read_value(values.spelled(value)), value)
        for wrong in ("", "-0", "01", '"', '"a b"', '"\\x4"', "a"):
            with self.assertRaises(ValueError):
                values.read_value(wrong)


if __name__ == "__main__":
    unittest.main()
