"""Ann, the employee: a small web page, on which she asks for goods, and sees what was approved and shipped."""
import html
import http.server
import json
import os
import threading
import urllib.parse
from dataclasses import asdict, dataclass
from typing import List

import purchase_employee as employee
import room
from sessiongraph import Client, Session

CAST = ("ann", "ben", "sue")
PORT = int(os.environ.get("LIVE_PAGE", "28827"))
LONGEST = 80
# (the table alone is asked for anew, so that what is being typed stays)
PAGE = """<!doctype html><html lang="en"><meta charset="utf-8"><title>Purchases</title><link rel="icon" href="data:,">
<noscript><meta http-equiv="refresh" content="5"></noscript>
<style>body {{ font: 1rem sans-serif; max-width: 45rem; margin: 2rem auto }} td, th {{ text-align: left; padding: .2rem 1rem .2rem 0 }}</style>
<h1>Purchases</h1>
<form method="post" action="/ask"><input name="goods" maxlength="{longest}" placeholder="lamp, chair or paper" autofocus required>
<button>Ask for it</button></form>
<table><tr><th>Goods</th><th>Limit</th><th>What became of it</th><th>Session</th></tr>{rows}</table>
<script>
setInterval(() => fetch("/").then(it => it.text()).then(text => document.querySelector("table").replaceWith(
  new DOMParser().parseFromString(text, "text/html").querySelector("table"))).catch(() => {{}}), 1000)
</script></html>"""
ROW = "<tr><td>{goods}</td><td>{limit}</td><td>{state}</td><td><code>{session:.12}</code></td></tr>"


@dataclass
class Purchase:
    """What she asked for, and what became of it."""

    goods: str
    state: str = "asked"
    limit: str = ""
    session: str = ""


class Ann(employee.Handlers):
    def wish(self, session: Session, came: None, knows: employee.Knows.wish) -> employee.Ask:
        session.context.session = session.id
        return employee.Ask(goods=session.context.goods)

    def answered(self, session: Session, came: employee.Approve, knows: employee.Knows.answered) -> employee.Order:
        session.context.state, session.context.limit = "approved and ordered", str(came.limit)
        return employee.Order()

    def over(self, session: Session, came: employee.Reject, knows: employee.Knows.over) -> None:
        session.context.state = "rejected"

    def home(self, session: Session, came: employee.Ship, knows: employee.Knows.home) -> None:
        session.context.state = "shipped"

    def left(self, session: Session) -> None:
        session.context.state = "no answer"


class Page(http.server.BaseHTTPRequestHandler):
    """The page. It is for the browser of this machine: what comes by another name, or from another page, is refused."""

    client: Client
    purchases: List[Purchase] = []

    def is_own(self) -> bool:
        own = [f"{host}:{PORT}" for host in ("127.0.0.1", "localhost")]
        return self.headers["Host"] in own and self.headers.get("Origin", f"http://{own[0]}") in [f"http://{it}" for it in own]

    def answers(self, status: int, kind: str, text: str, **more: str) -> None:
        data = text.encode()
        self.send_response(status)
        for name, value in {"Content-Type": f"{kind}; charset=utf-8", "Content-Length": str(len(data)), **more}.items():
            self.send_header(name, value)
        self.end_headers()
        self.wfile.write(data)

    def do_GET(self) -> None:
        found = [asdict(it) for it in self.purchases]
        if not self.is_own():
            self.answers(403, "text/plain", "not for you\n")
        elif self.path == "/":
            rows = "".join(ROW.format(**{name: html.escape(text) for name, text in it.items()}) for it in reversed(found))
            self.answers(200, "text/html", PAGE.format(rows=rows, longest=LONGEST))
        elif self.path == "/purchases":
            self.answers(200, "application/json", json.dumps(found))
        else:
            self.answers(404, "text/plain", "no such page\n")

    def do_POST(self) -> None:
        size = self.headers.get("Content-Length", "")
        data = self.rfile.read(int(size)) if size.isdigit() and int(size) < 4_096 else b""
        goods = urllib.parse.parse_qs(data.decode(errors="replace")).get("goods", [""])[0].strip()[:LONGEST]
        if not self.is_own() or self.path != "/ask" or not goods:
            self.answers(403, "text/plain", "not so\n")
            return
        purchase = Purchase(goods)
        self.purchases.append(purchase)
        self.client.begin(CAST, purchase)
        self.answers(303, "text/plain", "", Location="/")

    def log_message(self, *_: object) -> None:
        pass


def serves(client: Client) -> None:
    """Serves the page beside the sessions, until the process ends."""
    Page.client = client
    server = http.server.ThreadingHTTPServer(("127.0.0.1", PORT), Page)
    threading.Thread(target=server.serve_forever, daemon=True).start()


if __name__ == "__main__":
    room.plays("ann", "employee", Ann(), serves)
