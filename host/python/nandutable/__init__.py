"""A PROFINET controller and its stations, by names.

    import nandutable

    with nandutable.plant("flow.json", interface="eth2") as plant:
        station = plant["flow-7"]
        print(station.slot2_flow)                # the value of an input
        station.slot4_valves = 165               # an output; Refused says what its type takes
        station.wait_until("slot2_flow", lambda flow: flow > 10, timeout=5)
        alarm = station.wait_alarm(timeout=60)
        im0 = station.read(0, 1, 0xAFF0)         # a record

`lines` reads each line of the controller, `process` runs it, `state` makes a picture of the plant, `commands` sends commands, and `plants` joins
these. docs/PYTHON.md has the rules.
"""

from .commands import Raw
from .errors import BadQuality, Busy, Error, Gone, Lost, NoSuchName, NotExchanging, NotStarted, Refused, TimedOut
from .lines import Alarm
from .plants import Diagnosis, Plant, Reading, Station, plant
from .values import Value, WithStatus

__all__ = ["Alarm", "BadQuality", "Busy", "Diagnosis", "Error", "Gone", "Lost", "NoSuchName", "NotExchanging", "NotStarted", "Plant", "Raw", "Reading",
           "Refused", "Station", "TimedOut", "Value", "WithStatus", "plant"]
