"""Points of 0-1 programs: from cbc, from HiGHS, or from any other solver by a command.

Nothing that a solver says of its answer counts. Its point is compared with the program, exactly;
that there is no better one is for a certificate to show (wdp.certify).
"""
import math
import os
import re
import shlex
import shutil
import signal
import sys
from collections.abc import Mapping, Sequence
from pathlib import Path

from wdp import files, steps
from wdp.program import Limits, ProcessResult, format_signal, run_process
from wdp.texts.refusals import NotFound, NotSolved, Refused, WrongArgument, need_all
from wdp.texts.zero_one import ZeroOne, format_solution, read_program, read_solution

# the statuses of `wdp-office solve`
_FAILED = 1
NO_POINT = 3
TIME_OUT = 4
_KILLED = 5
MOST_OF_ANSWER = 32 * 1024 * 1024  # bytes of any file that a solver writes
MOST_OF_PROGRAM = 1024 * 1024 * 1024
# the modules that this solver needs
NEEDS: Mapping[str, Sequence[str]] = {"HiGHS": ("numpy", "scipy")}
_FILES = {"mps": "program.mps", "free": "free.mps", "out": "solution.txt"}
_PLACE = re.compile(r"\{([^{}]*)\}")  # of these files, and of the `seconds`
# (in these programs cbc's cuts and its own preprocessing take longer than the nodes they save)
_CBC = "cbc {free} -cuts off -preprocess off -sec {seconds} -timeMode elapsed -solve -solu {out}"
_HIGHS = "{mps} {out} {seconds}"  # of highs.py, which Python runs
_CBC_LINE = re.compile(r"(?:\*\*)? *[0-9]+ +(\S+) +(\S+) +\S+ *")
_LONGEST_GRACE = 25  # seconds by which a solver may overstep its limit


def find_solver(solver: str | None = None) -> str:
    """A solver's name or command, by default the usual one's.

    Raises WrongArgument if it is neither a name nor a command, and NotFound if it isn't installed.
    """
    solver = solver or ("cbc" if shutil.which("cbc") else "highs")
    if solver != "highs":
        program = _split_command(solver)[0]
        if not shutil.which(program):
            hint = ": apt-get install -y coinor-cbc; or use --solver highs"
            raise NotFound(f"the solver {program} isn't installed{hint if solver == 'cbc' else ''}")
    return solver


def _split_command(solver: str) -> list[str]:
    """The command by which a solver is called: the program's name, and arguments with places in
    them.
    """
    if solver == "highs":
        return [sys.executable, str(Path(__file__).with_name("highs.py")), *_HIGHS.split()]
    try:
        command = shlex.split(_CBC if solver == "cbc" else solver)
    except ValueError as error:
        raise WrongArgument(f"the solver's command: {error}") from None
    places = set(_PLACE.findall(" ".join(command[1:])))
    if not places & {"mps", "free"} or not places <= {*_FILES, "seconds"}:
        answer = "perhaps {out} for its answer and {seconds} for the time limit"
        known = f"cbc, highs, or a command with {{mps}} for the program, {answer}"
        raise WrongArgument(f"a solver is {known}, and not {solver}")
    if os.sep in command[0]:
        command[0] = os.path.abspath(command[0])
    return command


def _fill_places(command: list[str], values: dict[str, str]) -> list[str]:
    """A command with the values of its places, of which the program's name has none.

    An argument whose place has no value is left out, with an option before it.
    """
    filled = command[:1]
    for argument in command[1:]:
        if values.keys() >= set(_PLACE.findall(argument)):
            filled.append(_PLACE.sub(lambda match: values[match[1]], argument))
        elif argument.startswith("{") and filled[1:] and re.fullmatch("-[^=]*", filled[-1]):
            filled.pop()
    return filled


def find_point(
    text: bytes, solver: str, seconds: float | None = None, log: Path | None = None
) -> bytes:
    """A feasible point of a program in MPS, as a solution has it, from a solver that `find_solver`
    found.

    What the solver prints goes to the file `log`. A solver that runs as a program gets the seconds
    rounded up. Raises NotSolved, whose status is TIME_OUT if the solver has no point when its time
    is over, and NO_POINT if there is none; Refused if its answer isn't a point.
    """
    program = read_program(text)
    if not program.columns:
        if fault := program.find_fault(set()):
            raise NotSolved(f"there is no solution: {fault}", NO_POINT)
        return b""
    if solver == "highs":
        need_all(NEEDS)
    with files.temporary_folder("solve.") as folder:
        output = log or folder / "printed.txt"
        answer = _run_solver(text, solver, seconds=seconds, folder=folder, log=output)
    source = f"the answer of {_name_solver(solver)}"
    try:
        return format_solution(read_solution(answer, program, source), program)
    except Refused as refused:
        raise Refused(f"{refused.text}{_explain_answer(solver)}") from None


def _name_solver(solver: str) -> str:
    """What messages call a solver."""
    return "HiGHS" if solver == "highs" else os.path.basename(_split_command(solver)[0])


def _explain_answer(solver: str) -> str:
    """What a message adds if the answer of a solver isn't a solution: how its command gives one."""
    if solver in ("cbc", "highs"):
        return ""
    name = _name_solver(solver)
    hint = "the command has to write lines NAME VALUE to {out}"
    if "{out}" not in solver:
        hint = "the command has to print lines NAME VALUE, or to write them to {out}"
    own = f"; --solver {name} calls {name} itself" if name == "cbc" else ""
    return f"; {hint}{own}"


def find_empty_solution(text: bytes) -> bytes:
    """The solution of a program in MPS in which all columns are 0 that may be.

    Raises Refused if it isn't feasible.
    """
    return make_empty_solution(read_program(text))


def make_empty_solution(program: ZeroOne) -> bytes:
    """The solution of a program in which all columns are 0 that may be.

    Raises Refused if it isn't feasible.
    """
    ones = {place for place, column in enumerate(program.columns) if column.lower == 1}
    if fault := program.find_fault(ones):
        raise Refused(f"no point is known to begin with: {fault}")
    return format_solution(ones, program)


def _run_solver(
    text: bytes, solver: str, *, seconds: float | None, folder: Path, log: Path
) -> bytes:
    """The answer of a solver that is called as a program in a folder, of which nothing is left.

    It may overstep its limit by some seconds.
    """
    command = _split_command(solver)
    limit = seconds and math.ceil(seconds)
    paths = {place: str(folder / name) for place, name in _FILES.items()}
    files.write_all({paths["mps"]: text, paths["free"]: _mark_free(text)})
    # (cbc takes a path with % for a pattern, and it is called in the folder)
    values = dict(_FILES if solver == "cbc" else paths)
    if limit:
        values["seconds"] = str(limit)
    guard = [sys.executable, "-IS", steps.__file__, str(os.getpid()), str(MOST_OF_ANSWER)]
    late = limit and limit + min(_LONGEST_GRACE, 5 + limit // 10)
    with open(log, "wb+") as printed:
        ended = run_process(
            guard + _fill_places(command, values),
            b"",
            Limits(MOST_OF_ANSWER, seconds=late, ending=signal.SIGTERM),
            output=printed,
            messages=printed,
            folder=folder,
        )
    _check_ending(ended, solver, limit)
    has_answer = os.path.lexists(paths["out"])
    if not has_answer and "{out}" in " ".join(command[1:]):
        raise NotSolved(f"{_name_solver(solver)} gave no answer: {_quote_end(ended)}", _FAILED)
    path = paths["out"] if has_answer else str(log)
    answer = files.read(path, MOST_OF_ANSWER, regular=True)
    return read_cbc_answer(answer) if solver == "cbc" else answer


def _quote_end(ended: ProcessResult) -> str:
    """The last line that a solver printed."""
    return ended.last_line or "it printed nothing"


def _check_ending(ended: ProcessResult, solver: str, limit: float | None) -> None:
    """Raises NotSolved if a solver, which had so many seconds, didn't end with status 0."""
    name = _name_solver(solver)
    status = ended.status
    if status is None:
        raise NotSolved(f"{name} overstepped its limit of {limit} s and was ended", TIME_OUT)
    if status == -signal.SIGXFSZ:
        raise NotSolved(f"{name} wrote more than {MOST_OF_ANSWER >> 20} MiB", _KILLED)
    if status < 0:
        raise NotSolved(f"{name} was killed by signal {format_signal(-status)}", _KILLED)
    line = _quote_end(ended)
    if status in (NO_POINT, TIME_OUT) and solver == "highs":
        raise NotSolved(line, status)
    if status:
        raise NotSolved(f"{name} ended with status {status}: {line}", _FAILED)


def _mark_free(text: bytes) -> bytes:
    """The text with `FREE` on its NAME line.

    cbc guesses fixed columns if the first bound line names a column of four letters, as
    ` UP BND X1_1 1`, unless the text says that it is free.
    """
    return re.sub(rb"(?m)^NAME\b[ \t]*([^ \t\r\n]*)[^\r\n]*", rb"NAME \1 FREE", text, count=1)


def read_cbc_answer(answer: bytes) -> bytes:
    """A solution from cbc's file of it.

    Raises NotSolved if cbc has none, and Refused if a line of it isn't understood.
    """
    heading, *lines = answer.decode(errors="replace").splitlines() or [""]
    if "no integer solution" in heading:
        raise NotSolved(f"cbc has no solution yet: {heading}", TIME_OUT)
    if heading.startswith(("Infeasible", "Unbounded", "Integer infeasible")):
        raise NotSolved(f"cbc found no solution: {heading}", NO_POINT)
    pairs: list[str] = []
    for line in lines:
        match = _CBC_LINE.fullmatch(line)
        if match is None:
            raise Refused(f"cbc's answer has a line that isn't understood: {line}")
        pairs.append(f"{match[1]} {match[2]}\n")
    return "".join(pairs).encode()
