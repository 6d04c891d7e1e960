"""What work says of itself: messages, progress, and lines of tables; and the message of a step that
failed.
"""
from collections.abc import Callable
from dataclasses import dataclass, field

from wdp import files
from wdp.progress import Times, is_at_terminal
from wdp.steps import Step
from wdp.texts.refusals import Refused


@dataclass
class Reporter:
    """Takes what work says of itself, and the times of its steps. This one keeps silent; that of a
    command prints.
    """

    is_quiet: bool = True
    times: Times = field(default_factory=Times)

    def say(self, text: str) -> None:
        """Takes a message, as that an answer isn't the best one."""

    def note(self, text: str) -> None:
        """Takes a message about progress."""

    def show(self, line: str) -> None:
        """Takes a line of a table."""


@dataclass
class ConsoleReporter(Reporter):
    """Prints messages on standard error, each after the name of the command; if it is quiet none
    about progress, and no tables.
    """

    command: str = ""

    def say(self, text: str) -> None:
        """Prints a line; at a terminal in the place of the line of progress."""
        files.tell("\r\x1b[K" if is_at_terminal() else "")
        files.say(self.command, text)

    def note(self, text: str) -> None:
        """Prints a line unless it is quiet."""
        if not self.is_quiet:
            self.say(text)

    def show(self, line: str) -> None:
        """Prints a line of a table unless it is quiet."""
        self.note(line)


@dataclass
class TableReporter(ConsoleReporter):
    """Prints messages in the same way, and tables on standard output."""

    def show(self, line: str) -> None:
        """Prints a line of a table."""
        files.put(f"{line}\n".encode())


def run_reporting(say: Callable[[str], None], label: str, step: Step) -> int:
    """Does a step, and says why it failed, after the label if there is one; its status."""
    try:
        return step() or 0
    except Refused as refused:
        why = refused.text
        status = refused.status
    except MemoryError:
        why = "out of memory"
        status = 1
    except OSError as error:
        why = f"{error.filename}: " if error.filename else ""
        why += str(error.strerror or error)
        status = 1
    say(f"{label}: {why}" if label else why)
    return status
