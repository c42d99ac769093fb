"""What the three share: their folder, their log, and how they end. The folder is that of LIVE_FOLDER, which `run` has prepared."""
import logging
import os
import signal
import sys
from typing import Callable, Optional

from sessiongraph import Client, Ended, Handlers, Policy


def path(name: str) -> str:
    """A file of the folder."""
    return os.path.join(os.environ["LIVE_FOLDER"], name)


def plays(me: str, role: str, handlers: Handlers, beside: Optional[Callable[[Client], None]] = None) -> None:
    """Plays a role until a signal asks for the end: Ctrl-C, or SIGTERM."""
    kept = logging.FileHandler(path(f"{me}.log"))
    logging.basicConfig(level=logging.INFO, format="%(asctime)s %(name)s %(message)s", handlers=[kept])
    try:
        client = Client(path(f"{me}.keys"), path(f"{role}.program"), tcp="LIVE_TCP" in os.environ, ledger=path(f"{me}.ledger"))
        with client:
            for it in (signal.SIGINT, signal.SIGTERM):
                signal.signal(it, lambda *_: client.stop())
            if beside:
                beside(client)
            client.run(handlers, policy=Policy(patience=float(os.environ.get("LIVE_PATIENCE", "60"))))
            logging.info("%s ends: %s", me, client.counts)
    except Ended as fault:
        sys.exit(f"{me}: {fault}")
