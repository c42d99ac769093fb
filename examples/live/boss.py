"""Ben, the boss: a policy in ten lines."""
from typing import Union

import purchase_boss as boss
import room
from sessiongraph import Session

LIMITS = {"lamp": 50, "chair": 120, "paper": 10}


class Ben(boss.Handlers):
    def desk(self, session: Session, came: boss.Ask, knows: boss.Knows.desk) -> Union[boss.Approve, boss.Reject]:
        kind = came.goods.partition(" ")[0]
        return boss.Approve(limit=LIMITS[kind]) if kind in LIMITS else boss.Reject()


if __name__ == "__main__":
    room.plays("ben", "boss", Ben())
