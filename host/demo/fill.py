#!/usr/bin/env python3
"""Fills the tank of the demo up to 500 mm, over the socket of its controller."""

import sys

import nandutable


def fill(pump):
    print("level", pump.level, "mm")
    try:
        pump.speed = 1500                                     # an output, in revolutions per minute
        for mark in (200, 300, 400, 500):
            level = pump.wait_until("level", lambda level: level >= mark, timeout=10)
            print("level", level, "mm")
        print("full")
    except nandutable.Error as fault:                         # with the reason of the controller or the device
        print("not filled:", fault)
    finally:
        pump.speed = 0


try:
    with nandutable.plant(socket="host/build/demo.lines") as plant:
        fill(plant["pump-1"])
except nandutable.NotStarted as fault:                        # no demo runs, or this user may not use its socket
    sys.exit(f"fill.py: {fault}")
