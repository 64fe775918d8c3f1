"""The exceptions of this package. Each has the controller's own reason as its text."""

from __future__ import annotations

from typing import Optional


class Error(Exception):
    """Any exception of this package."""


class Refused(Error):
    """The controller or the device refused a command. Nothing has changed."""


class NotExchanging(Refused):
    """The command needs an exchange of data with the station, which does not exist. It is not kept for later."""


class NoSuchName(Error, AttributeError, KeyError):
    """There is no station or no signal of this name."""

    def __str__(self) -> str:
        return str(self.args[0]) if self.args else ""


class Lost(Error):
    """The relation ended before the answer came."""


class BadQuality(Error):
    """The value of the signal is not good: no data is exchanged with the station, or the device says that the data are bad."""


class Gone(Error):
    """The controller has ended, or its socket is closed. `status` is the exit status of the process, None for a socket."""

    def __init__(self, text: str, status: Optional[int] = None) -> None:
        super().__init__(text)
        self.status = status


class NotStarted(Gone):
    """The controller did not start: an interface, a plan or an option is wrong."""


class Busy(Error):
    """The controller does not read its lines, so this one was not sent."""


class TimedOut(Error, TimeoutError):
    """What was waited for did not come within its time."""
