"""Playing by handlers: the three of the purchase, each a client of its own, over the loopback; only if the program is there."""
import importlib.util
import logging
import os
import signal
import subprocess
import sys
import threading
import time
import unittest
from typing import Any, Dict, List, Tuple

import room
from sessiongraph import Abandon, Client, Policy, Quiet, Session, errors, events

POLICY = Policy(patience=600.0, last=3, longest=20.0)


def module(role: str) -> Any:
    """The stubs of a role, as a module."""
    path = room.file(f"purchase_{role}.py", room.stubs(role))
    spec = importlib.util.spec_from_file_location(f"purchase_{role}", path)
    assert spec is not None and spec.loader is not None
    made = sys.modules[spec.name] = importlib.util.module_from_spec(spec)
    spec.loader.exec_module(made)
    return made


employee, boss, shop = (module(it) for it in ("employee", "boss", "shop"))


class Ann(employee.Handlers):  # type: ignore[misc,name-defined]
    def wish(self, session: Session, came: Any, knows: Any) -> Any:
        if isinstance(session.context, Exception):
            raise session.context
        return session.context if isinstance(session.context, employee.Order) else employee.Ask(session.context)

    def answered(self, session: Session, came: Any, knows: Any) -> Any:
        session.context = (knows.goods, knows.limit, came.limit)
        return employee.Order()


class Ben(boss.Handlers):  # type: ignore[misc,name-defined]
    def desk(self, session: Session, came: Any, knows: Any) -> Any:
        return boss.Reject() if came.goods == "piano" else boss.Approve(limit=len(came.goods))


class Sue(shop.Handlers):  # type: ignore[misc,name-defined]
    def counter(self, session: Session, came: Any, knows: Any) -> Any:
        return shop.Ship()


BEN = """
import signal, sys
import purchase_boss as boss
from sessiongraph import Client

class Ben(boss.Handlers):
    def desk(self, session, came, knows):
        return boss.Reject()

signal.signal(signal.SIGINT, signal.default_int_handler)
with Client(sys.argv[1], sys.argv[2], program=sys.argv[3]) as client:
    print("ready", flush=True)
    client.run(Ben())
print(client.returncode)
"""


@unittest.skipIf(room.PROGRAM is None, "the program isn't there")
class Plays(unittest.TestCase):
    def setUp(self) -> None:
        self.clients: Dict[str, Client] = {}
        self.threads: List[threading.Thread] = []
        logging.disable(logging.ERROR)
        for name in room.ROLES:
            self.clients[name] = Client(room.keys(name), room.compiled(room.ROLES[name]), program=room.PROGRAM)

    def others(self, workers: int = 0) -> None:
        for name, handlers in (("ben", Ben()), ("sue", Sue())):
            words = {"policy": POLICY, "workers": workers}
            self.threads.append(threading.Thread(target=self.clients[name].run, args=(handlers,), kwargs=words))
            self.threads[-1].start()

    def tearDown(self) -> None:
        logging.disable(logging.NOTSET)
        for it in self.clients.values():
            it.stop()
        for thread in self.threads:
            thread.join()
        for it in self.clients.values():
            self.assertEqual(it.close(), 0)

    def test_sessions_side_by_side(self) -> None:
        self.others()
        ann = self.clients["ann"]
        begun = [ann.begin(room.CAST, "piano" if it % 3 == 0 else "lamp" * it, version=1 + it % 2) for it in range(1, 7)]
        ann.run(Ann(), policy=POLICY, until_idle=True)
        self.assertEqual([it.state for it in begun], ["over"] * 6)
        for number, it in enumerate(begun, 1):
            self.assertTrue(it.done() and it.wait(0) and it.fault is None and it.role == "employee" and it.graph == "purchase")
            labels = [step.label for step in it.steps if isinstance(step, (events.Sent, events.Received))]
            self.assertEqual(labels, ["Ask", "Reject"] if number % 3 == 0 else ["Ask", "Approve", "Order", "Ship"])
            if number % 3:
                self.assertEqual(it.context, ("lamp" * number, 4 * number, 4 * number))
        self.assertEqual(len({it.id for it in begun}), 6)

    def test_what_may_not_be_sent_is_refused_by_name_and_leaves_its_session_alone(self) -> None:
        self.others(workers=2)
        ann, wrong = self.clients["ann"], ValueError("no idea")
        cases: List[Tuple[Any, type]] = [
            (employee.Order(), errors.WrongMessage),
            (wrong, ValueError),
            (Abandon("no"), Abandon),
            (7, errors.BadValues),
            (None, TypeError),
            ("a" * 1_025, ValueError),
        ]
        begun = [ann.begin(room.CAST, it) for it, _ in cases] + [ann.begin(("ann", "ben"), ""), ann.begin(room.CAST, "lamp")]
        ann.run(Ann(), policy=POLICY, until_idle=True, workers=2)
        for session, (_, kind) in zip(begun, cases):
            self.assertEqual((session.state, type(session.fault)), ("left", kind))
        self.assertEqual(str(begun[0].fault), "Order may not be sent at wish of employee, but Ask")
        self.assertIsInstance(begun[-2].fault, errors.BadCast)
        self.assertEqual(begun[-1].state, "over")
        self.assertEqual((ann.counts.over, ann.counts.left), (1, 7))

    def test_who_hears_nothing_leaves_in_the_end(self) -> None:
        ann = self.clients["ann"]
        begun = ann.begin(room.CAST, "lamp")
        ann.run(Ann(), policy=Policy(patience=0.5, longest=0.2), until_idle=True)
        self.assertEqual((begun.state, type(begun.fault)), ("left", Quiet))

    def test_handlers_of_another_graph_are_refused(self) -> None:
        with self.assertRaises(errors.OtherGraph):
            self.clients["ann"].run(Ben())

    def test_ctrl_c_ends_cleanly(self) -> None:
        """At a terminal the signal comes to the application alone, and its principal is ended by it."""
        self.clients["ben"].close()
        words = [sys.executable, room.file("ben.py", BEN), room.keys("ben"), room.compiled("boss"), str(room.PROGRAM)]
        path = f"{room.HERE.parent}:{room.FOLDER.name}"
        with subprocess.Popen(words, stdout=subprocess.PIPE, stderr=subprocess.PIPE, text=True, env={**os.environ, "PYTHONPATH": path}) as ben:
            assert ben.stdout is not None
            self.assertEqual(ben.stdout.readline(), "ready\n")
            time.sleep(0.5)
            ben.send_signal(signal.SIGINT)
            out, err = ben.communicate(timeout=120)
        self.assertEqual((ben.returncode, out, err), (0, "0\n", ""))

    def test_an_end_of_the_process_is_raised(self) -> None:
        self.clients["sue"].kill()
        with self.assertRaises(errors.Ended):
            self.clients["sue"].run(Sue())
        self.clients["sue"].close()
        self.clients["sue"] = Client(room.keys("sue"), room.compiled("shop"), program=room.PROGRAM)


if __name__ == "__main__":
    unittest.main()
