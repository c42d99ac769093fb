"""Sue, the shop: her stock is in SQLite, in a file. What is shipped in a session is taken off the stock in one transaction, at most once a
session."""
import sqlite3
from typing import Optional

import purchase_shop as shop
import room
from sessiongraph import Abandon, Session

PRICES = {"lamp": 45, "chair": 110, "paper": 4}
TABLES = """
CREATE TABLE IF NOT EXISTS stock (kind TEXT PRIMARY KEY, left INTEGER NOT NULL CHECK (left >= 0));
CREATE TABLE IF NOT EXISTS shipped (session TEXT PRIMARY KEY, goods TEXT NOT NULL, price INTEGER NOT NULL);
INSERT OR IGNORE INTO stock VALUES ('lamp', 200), ('chair', 100), ('paper', 1000);
"""


class Sue(shop.Handlers):
    def __init__(self, path: str) -> None:
        self.db = sqlite3.connect(path)
        self.db.executescript(TABLES)

    def counter(self, session: Session, came: shop.Order, knows: shop.Knows.counter) -> shop.Ship:
        kind = came.goods.partition(" ")[0]
        price: Optional[int] = PRICES.get(kind)
        if price is None or price > came.limit:
            raise Abandon(f"{came.goods} isn't sold for {came.limit}")
        with self.db:
            self.db.execute("INSERT INTO shipped VALUES (?, ?, ?)", (session.id, came.goods, price))
            if self.db.execute("UPDATE stock SET left = left - 1 WHERE kind = ? AND left > 0", (kind,)).rowcount == 0:
                raise Abandon(f"{came.goods} is sold out")
        return shop.Ship()


if __name__ == "__main__":
    room.plays("sue", "shop", Sue(room.path("stock.db")))
