"""Where a run is done: in a folder that stays, in one for another award in it, or in a temporary
one.
"""
import secrets
import tempfile
from collections.abc import Callable
from dataclasses import replace
from pathlib import Path

from wdp import audits, files
from wdp.folder import INPUT, Folder
from wdp.office.explaining import explain
from wdp.publish.judging import judge
from wdp.runs import messages
from wdp.runs.contents import TIES, name_file
from wdp.runs.origin import Origin
from wdp.runs.processes import Processes
from wdp.runs.reports import AUDIT, Page
from wdp.runs.run import Run
from wdp.texts import accepted
from wdp.texts.parts import Part, parse_parts
from wdp.texts.refusals import Refused
from wdp.texts.zero_one import format_solution, read_program, read_solution

AWARDS = "awards"  # the folders of awards that were made the first
_UNPRICED = "unpriced.txt"  # the audit, without prices, that such a folder was made of


def name_temporary_folder() -> Path:
    """A path for a temporary folder, which isn't there yet."""
    return Path(tempfile.gettempdir(), f"auction.{secrets.token_hex(8)}")


def _check_folder(folder: Folder) -> None:
    if not folder.where.is_dir():
        raise Refused(f"{folder.where} is no folder; --input FILE makes it, with the input")


def run_in_folder(run: Run, data: bytes | None = None, award: int = 1) -> int:
    """Does all in the run's folder, which stays, of an input, or the one that is there; and another
    award than the first in a folder of its own. Gives the status.
    """
    folder = run.folder
    _check_folder(folder)
    with folder.lock(alone=True):
        with folder.scratch():
            folder.take_input(data)
            status = run.run_all()
        if status or award == 1:
            return status
        return _run_for_award(run, award)


def run_from_origin(run: Run, origin: Origin, data: bytes) -> int:
    """Does all in a new folder, of an input that has other forms than the folder it begins from.
    Gives the status.
    """
    origin.check_new(run.folder.where, data)
    with files.map_errors(str(run.folder.where)):
        run.folder.where.mkdir(parents=True, exist_ok=True)
    origin.copy_kept(run.folder)
    return run_in_folder(replace(run, earlier=origin.make_earlier()), data)


def run_step_in_folder(run: Run, step: str) -> int:
    """Does one step; any number of them have the folder at once. Gives the status."""
    _check_folder(run.folder)
    with run.folder.lock(alone=False):
        return run.run_step(step)


def run_without_folder(
    run: Run, take: Callable[[], None], *, name: str | None, path: str | None = None
) -> int:
    """Does all in a temporary folder, of which nothing is left: the process that waits takes it
    away, and the one that works if the first one is killed.

    `take` gives the folder the input, and the file of this name goes to the path, or standard
    output. Gives the status.
    """
    folder = run.folder

    def work() -> int:
        try:
            folder.where.mkdir(mode=0o700)
            take()
            with folder.scratch():
                status = run.run_all()
            if name and folder.has(name):
                files.put(folder.read(name), path)
            return status
        finally:
            files.remove(folder.where)

    try:
        return Processes(run.means.reporter).run_one("", work)
    finally:
        files.remove(folder.where)


def _run_for_award(run: Run, award: int) -> int:
    """Does all for an award that isn't the first of the audit, in a folder of its own, in which it
    is. Gives the status.
    """
    program = run.means.program
    data = run.folder.read(INPUT)
    report = judge(program, "verify", run.folder.read(AUDIT)).report
    left_out = explain(program, data, with_bids=True).bids
    audits.check_first(award, report.awards, left_out, are_all=report.has_all_awards)
    audit = audits.put_first(run.contents.format_audit(with_prices=False), award)
    where = run.folder.path(AWARDS) / str(award)
    folder = Folder(where, replaces=run.folder.replaces, is_derived=True)
    run_of_award = replace(run, folder=folder, is_named=False, page=Page())
    with files.map_errors(str(folder.where)):
        folder.where.mkdir(parents=True, exist_ok=True)
    with folder.lock(alone=True), folder.scratch():
        _forget_missing(run_of_award)
        if folder.has(_UNPRICED) and folder.read(_UNPRICED) != audit:
            folder.clear()
        folder.leave(INPUT, data)
        if not folder.has(_UNPRICED) or _lacks_part(folder, audit):
            take_audit(run_of_award, audit)
            folder.leave(_UNPRICED, audit)
        status = run_of_award.run_all()
    if not status:
        if audits.list_numbers(folder.read(AUDIT))[0] != award:
            raise Refused(f"{folder.path(AUDIT)} hasn't award {award} first: delete {folder.where}")
        run.means.reporter.say(f"award {award} is the first of {folder.path(AUDIT)}")
    return status


def _forget_missing(run: Run) -> None:
    """Forgets what isn't in the run's folder any more, and what it replaces. Refused if a file isn't
    as it was left.
    """
    missing = run.folder.check()
    if missing:
        paths = [str(run.folder.path(name)) for name in missing]
        run.means.reporter.say(messages.format_made_again(paths))
    for name in missing:
        run.folder.forget(name)


def _lacks_part(folder: Folder, audit: bytes) -> bool:
    """Whether a file with something of the audit isn't in its folder any more. What the solver finds
    in its place may be another award.
    """
    kinds = [part.kind for part in parse_parts(audit)]
    groups = range(1, kinds.count("certificate") + 1)
    names = [name_file(kind, group) for kind in ("solution", "certificate") for group in groups]
    return not all(map(folder.has, [*names, TIES]))


def take_audit(run: Run, audit: bytes) -> None:
    """Puts what an audit has into the run's folder, as if steps had left it, but for its prices,
    which are found anew. Refused if `wdp verify` refuses it.
    """
    audit = audits.remove_prices(audit)
    parts = list(parse_parts(audit))
    judge(run.means.program, "verify", audit)
    run.folder.take_input(audits.join_parts(part for part in parts if part.kind in accepted.KINDS))
    run.flow.compiler.compile()
    run.contents.take_award(next(part.text for part in parts if part.kind == "solution"))
    _leave_solutions(run.folder, parts)
    certificates = [part.text for part in parts if part.kind == "certificate"]
    for group, text in enumerate(certificates, 1):
        run.folder.leave(name_file("certificate", group), text)
    ties = [part for part in parts if part.kind in ("tie", "unique")]
    if ties:
        run.folder.leave(TIES, audits.join_parts(ties))


def _leave_solutions(folder: Folder, parts: list[Part]) -> None:
    """Leaves the solutions of an audit as solvers give them, each after the line that says which
    award it is, or that its group was added, if it has one.
    """
    solutions = [part.text for part in parts if part.kind == "solution"]
    for group, text in enumerate(solutions, 1):
        program = read_program(folder.read(name_file("program", group)))
        ones = read_solution(text, program, "a solution")
        solution = audits.find_mark(text) + format_solution(ones, program)
        folder.leave(name_file("solution", group), solution)
