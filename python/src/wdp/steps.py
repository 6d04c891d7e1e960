"""Steps side by side, each in a process of its own, of which nothing is left, whatever ends them
and wherever it hid.

usage: python3 -IS steps.py PARENT BYTES COMMAND..

Runs a program so. PARENT is the process that asks; when that ends, or by SIGTERM, the program is
ended, and if PARENT has ended, the folder in which it ran, if its name begins with `solve.`, is
taken away. No file that it writes gets more than BYTES. The status is the program's own; 127 if it
can't be started.
"""
import ctypes
import gc
import os
import resource
import signal
import sys
import time
from collections.abc import Callable, Collection, Iterator, Mapping
from contextlib import AbstractContextManager, contextmanager, suppress

_PR_SET_PDEATHSIG = 1
_PR_SET_CHILD_SUBREAPER = 36
_ENDINGS = {signal.SIGTERM, signal.SIGINT, signal.SIGHUP}
_LOOK_EVERY = 0.2  # seconds
_PATIENCE = 5  # seconds for a step to put away what it began
_LAST_PATIENCE = 10  # seconds for what was killed to end
INTERRUPTED = 130
_NOT_STARTED = 127

Step = Callable[[], int | None]
Watch = Callable[[int, list[str]], None]
AtOnce = Callable[[], AbstractContextManager[None]]  # as `end_at_once`


def _prctl(option: int, value: int) -> None:
    """Asks the kernel for a signal when the parent ends, or for the children of those that end."""
    ctypes.CDLL(None).prctl(option, value)


def _interrupt(number: int, frame: object) -> None:
    """Ends the work once: what comes after is over already, and waits for ever."""
    signal.pthread_sigmask(signal.SIG_BLOCK, _ENDINGS)
    # (of one that has come, and whose handler is then SIG_IGN, Python prints a traceback)
    for ending in _ENDINGS:
        signal.signal(ending, lambda number, frame: None)
    raise KeyboardInterrupt


def _set_endings(
    handler: Callable[[int, object], None] | signal.Handlers, signal_of_parent: int
) -> None:
    """What the signals that end a process do in this one, and which one it gets when its parent
    ends. They wait while the handlers change.
    """
    with hold_signals():
        for ending in _ENDINGS:
            signal.signal(ending, handler)
    _prctl(_PR_SET_PDEATHSIG, signal_of_parent)


@contextmanager
def end_at_once() -> Iterator[None]:
    """Within this nothing is begun that would have to be put away: the process ends without a last
    word.
    """
    _set_endings(signal.SIG_DFL, signal.SIGKILL)
    try:
        yield
    finally:
        _set_endings(_interrupt, signal.SIGTERM)


@contextmanager
def hold_signals() -> Iterator[None]:
    """Within this a signal waits: an import that it breaks off may fail with another error."""
    mask = signal.pthread_sigmask(signal.SIG_BLOCK, _ENDINGS | {signal.SIGCHLD})
    try:
        yield
    finally:
        signal.pthread_sigmask(signal.SIG_SETMASK, mask)


def _fork(step: Step) -> int:
    """Does a step in a process of its own, which ends whatever goes wrong; its number."""
    parent = os.getpid()
    # (a collection in the child would write to all that it shares with this process)
    gc.freeze()
    process = os.fork()
    if not process:
        status = 1
        try:
            status = _run_alone(step, parent)
        finally:
            os._exit(status)
    gc.unfreeze()
    return process


def _run_alone(step: Step, parent: int) -> int:
    """What a step comes to in its process."""
    try:
        try:
            _set_endings(_interrupt, signal.SIGTERM)
            _prctl(_PR_SET_CHILD_SUBREAPER, 1)
            signal.pthread_sigmask(signal.SIG_SETMASK, [])
            return (step() or 0) if os.getppid() == parent else 1
        finally:
            _end_all()
    except KeyboardInterrupt:
        return INTERRUPTED
    except BaseException:
        if sys.stderr is not None:
            import traceback  # (here, since each solver would wait until it is read)

            traceback.print_exc()
            sys.stderr.flush()
        return 1


def heed_children() -> None:
    """Has the ends of children kept, which a parent may have had ignored."""
    if signal.getsignal(signal.SIGCHLD) == signal.SIG_IGN:
        signal.signal(signal.SIGCHLD, signal.SIG_DFL)


def run(
    steps: Mapping[str, Step],
    *,
    jobs: int = 1,
    watch: Watch | None = None,
    after: Mapping[str, Collection[str]] | None = None,
) -> dict[str, int]:
    """The statuses of steps by their names, below 0 if a signal ended one.

    At most `jobs` run at a time, each `after` those that it waits for, however these end; `watch`
    gets now and then how many have ended, and which are at work. What ends this ends them all, and
    whatever they started.
    """
    waiting = dict.fromkeys(steps)
    before = {name: set(names) & steps.keys() for name, names in (after or {}).items()}
    at_work: dict[int, str] = {}
    ended: dict[str, int] = {}
    _prctl(_PR_SET_CHILD_SUBREAPER, 1)
    heed_children()
    with hold_signals():
        try:
            while waiting or at_work:
                ready = [name for name in waiting if before.get(name, set()) <= ended.keys()]
                for name in ready[: jobs - len(at_work)]:
                    del waiting[name]
                    at_work[_fork(steps[name])] = name
                _wait_for_signal()
                for process, status in _reap().items():
                    if process in at_work:
                        ended[at_work.pop(process)] = status
                if watch:
                    watch(len(ended), list(at_work.values()))
        finally:
            _terminate(set(at_work))
            _end_all()
    return ended


def _wait_for_signal() -> None:
    """Waits for the end of a child, or some time; KeyboardInterrupt if this process is to end."""
    info = signal.sigtimedwait(_ENDINGS | {signal.SIGCHLD}, _LOOK_EVERY)
    if info and info.si_signo != signal.SIGCHLD:
        raise KeyboardInterrupt


def _terminate(processes: set[int]) -> None:
    """Asks processes to end, and gives them some time for it."""
    end = time.monotonic() + _PATIENCE
    for process in processes:
        os.kill(process, signal.SIGTERM)
    while processes and time.monotonic() < end:
        processes -= set(_reap())
        time.sleep(0.01)


def _reap() -> dict[int, int]:
    """The statuses of the processes that ended, by their numbers."""
    statuses: dict[int, int] = {}
    with suppress(ChildProcessError):
        while True:
            process, status = os.waitpid(-1, os.WNOHANG)
            if not process:
                break
            statuses[process] = os.waitstatus_to_exitcode(status)
    return statuses


def _list_children() -> list[str]:
    """The numbers of this process's children."""
    with open(f"/proc/self/task/{os.getpid()}/children") as children:
        return children.read().split()


def _end_all() -> None:
    """Ends all that was started: whatever loses its parent becomes a child of this process."""
    end = time.monotonic() + _LAST_PATIENCE
    while left := _list_children():
        if time.monotonic() > end:
            raise TimeoutError(f"these processes can't be ended: {' '.join(left)}")
        for process in left:
            os.kill(int(process), signal.SIGKILL)
        _reap()
        time.sleep(0.002)


def _become(command: list[str]) -> int:
    """Turns this process into a program, in a session of its own; its status if that can't be
    started.
    """
    try:
        os.setsid()
        _prctl(_PR_SET_CHILD_SUBREAPER, 0)
        _set_endings(signal.SIG_DFL, signal.SIGKILL)
        for number in (signal.SIGPIPE, signal.SIGXFSZ):
            signal.signal(number, signal.SIG_DFL)
        os.execvp(command[0], command)
    except OSError as error:
        text = f"{command[0]} can't be started: {error.strerror}\n"
        os.write(2, text.encode(errors="replace"))
    return _NOT_STARTED


def _run_program(parent: int, most: int, command: list[str]) -> int:
    """Runs a program for a parent, whose files get at most so many bytes; the program's status."""
    signal.pthread_sigmask(signal.SIG_SETMASK, [])
    _prctl(_PR_SET_PDEATHSIG, signal.SIGTERM)
    resource.setrlimit(resource.RLIMIT_FSIZE, (most, most))
    resource.setrlimit(resource.RLIMIT_CORE, (0, 0))
    if os.getppid() != parent:
        return INTERRUPTED
    try:
        status = run({"": lambda: _become(command)})[""]
    except KeyboardInterrupt:
        return INTERRUPTED
    if status < 0:
        with suppress(OSError):  # (nothing can be said of SIGKILL)
            signal.signal(-status, signal.SIG_DFL)
        os.kill(os.getpid(), -status)
    return status


def main(arguments: list[str]) -> int:
    """Does what the arguments ask for: PARENT BYTES COMMAND.. ; the status."""
    parent = int(arguments[0])
    status = _run_program(parent, most=int(arguments[1]), command=arguments[2:])
    _clear_after(parent)
    return status


def _clear_after(parent: int) -> None:
    """Takes away the folder that a parent made for this, and can't take away any more."""
    folder = os.getcwd()
    if os.getppid() != parent and os.path.basename(folder).startswith("solve."):
        os.chdir("/")
        os.execvp("rm", ["rm", "-rf", "--", folder])


if __name__ == "__main__":
    sys.exit(main(sys.argv[1:]))
