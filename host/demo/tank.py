"""The tank of the demo: its pump is the output of the device (slot 2, revolutions per minute), its level the input (slot 1, millimetres)."""

import re
import threading

PUMPED = 0.2  # millimetres a second for each revolution per minute
LEAK = 5.0  # millimetres a second
FULL = 2000.0
STEP = 0.05  # seconds


class Tank:
    """Simulates the tank of a running device (`wire.Program`), until `close`."""

    def __init__(self, device, level=100.0):
        self.device, self.level, self.speed = device, level, 0
        self.seen = len(device.lines)
        self.is_over = threading.Event()
        self.thread = threading.Thread(target=self.run, daemon=True)
        self.thread.start()

    def run(self):
        while not self.is_over.wait(STEP) and self.device.process.poll() is None:
            self.look_at_pump()
            self.level = min(FULL, max(0.0, self.level + (self.speed * PUMPED - LEAK) * STEP))
            try:
                self.device.say(f"input 1 1 {round(self.level):04x}")
            except (OSError, ValueError):
                return

    def look_at_pump(self):
        """The newest output of the device; without a relation it is zero."""
        lines = self.device.lines[self.seen:]
        self.seen += len(lines)
        for _, line in lines:
            found = re.match(r"output 2 1 ([0-9a-f]{4})", line)
            if found:
                self.speed = int(found[1], 16)

    def close(self):
        self.is_over.set()
        self.thread.join()
