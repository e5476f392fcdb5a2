"""The way in which answers are judged."""
import dataclasses
import pathlib

from limits import Limits


@dataclasses.dataclass(frozen=True)
class Way:
    """By which limits, over the libraries of which clone (none: those that `lab prepare` made here), and whether the words go
    to somebody who waits."""
    limits: Limits = Limits()
    libraries: pathlib.Path | None = None
    say: object = lambda text: None
