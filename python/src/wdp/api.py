"""An auction: what goes into the program, and each of its commands as a call."""
from __future__ import annotations

import os
from collections.abc import Iterable, Iterator, Sequence
from contextlib import contextmanager
from itertools import chain
from typing import TypeVar

from wdp import audits, files
from wdp.checks import check_seconds, check_solver
from wdp.folder import INPUT
from wdp.office.faults import format_count
from wdp.office.findings import Explained
from wdp.office.explaining import explain
from wdp.office.part_files import PartReader, find_names
from wdp.office.reading import format_groups
from wdp.outcome import Outcome
from wdp.program import Limits, StrPath, ask, find_program
from wdp.publish.judging import judge
from wdp.results import Allocation, Counts, Program, Report, Solutions
from wdp.runs.contents import Contents, Goals, name_file
from wdp.runs.direct import DirectWorker
from wdp.runs.flow import Flow
from wdp.runs.means import Means
from wdp.runs.stores import MemoryStore
from wdp.texts import answers, records
from wdp.texts.accepted import KINDS
from wdp.texts.forms import list_form_bidders, put_form, read_bidder, remove_forms
from wdp.texts.parts import Part, add_groups, list_groups, list_names, parse_parts
from wdp.texts.records import Forms, Groups, Rows, Rules, Solution, Text
from wdp.texts.refusals import NotFound, Refused, WrongArgument, escape
from wdp.texts.tables import encode

_Value = TypeVar("_Value")

_ANSWERS = Goals(is_certified=False, is_priced=False, is_reported=False)
_EACH = "each"
_WINNERS = "winners"


class Auction:
    """The rules of an auction, its bidders' forms, and the groups of bidders that are left out in
    turn.

    `rules`: a text as in docs/REFERENCE.md, a list of records (tuples, or dicts with `record`), or
    a data frame of these.

    `forms`: a list of texts or of pairs of a bidder's name and its bids (tuples, dicts with
    `amount` and the categories, a data frame); or one table of all bids, a list of dicts or a data
    frame with `bidder`, `amount` and the categories. A data frame must have a column for each
    category, and a dict an entry unless `missing_as_zero` is true.

    `groups`: a text, or a list of lines or of tuples of names; by default the one group that leaves
    nobody out. `"each"` is that group, and each bidder alone; `"winners"` is that group, and once
    `solve`, `certify` or `report` has a solution of it, each of its winners alone.

    Amounts are whole pounds, quantities lots. Nothing is rounded. A bidder has one form, unless
    `last_wins` says that of several the last one counts.

    `program` is the path of the proved program, `time_limit` how many seconds each call of it may
    take; by default there is no limit.

    Raises WrongArgument if this can't be written as an input, and NotFound if there is no program.
    Every call raises Refused if the program refuses, and Unclear if its answer isn't one of
    docs/REFERENCE.md.

    >>> bidders = [("bidder", "Alpha", 9, 2), ("bidder", "Beta", 9, 1)]
    >>> auction = Auction(
    ...     rules=[("rules", 1, 1), ("category", "A", 2, 10, 1), *bidders],
    ...     forms=[("Alpha", [(30, 1), (50, 2)]), ("Beta", [(45, 2)])],
    ...     groups=["-", "Alpha"],
    ... )
    >>> auction
    <wdp.Auction with bidders Alpha and Beta, category A, 2 forms and 2 groups>
    >>> report = auction.report(["X1_2 1\\n", {"X2_1": 1}])
    >>> report[0].winners, report[0].total
    ((Winner(bidder='Alpha', bid=2, amount=50, lots={'A': 2}),), 50)
    >>> [group.cost for group in report]
    [0, 45]
    """

    def __init__(
        self,
        *,
        rules: Rules,
        forms: Forms = (),
        groups: Groups = None,
        missing_as_zero: bool = False,
        last_wins: bool = False,
        program: StrPath | None = None,
        time_limit: float | None = None,
    ) -> None:
        rules_text = records.format_rules(rules)
        self._forms = records.make_forms(forms, rules_text, missing_as_zero)
        parts = [records.make_part("rules", rules_text)]
        for number, form in enumerate(self._forms, 1):
            parts.append(records.make_part("form", form.text, number))
        is_rule = isinstance(groups, str) and groups in (_EACH, _WINNERS)
        groups_text = None if is_rule else groups
        parts.append(records.make_part("groups", records.format_groups(groups_text)))
        if not last_wins:
            records.check_bidders(self._forms)
        self._input = b"".join(parts)
        self._awaits_winners = is_rule and groups == _WINNERS
        self._outcome: Outcome | None = None
        self._program = find_program(program)
        self._time_limit = check_seconds(time_limit)
        if is_rule and groups == _EACH:
            self._add_groups(self.bidders)

    @classmethod
    def from_text(
        cls, input_text: Text, *, program: StrPath | None = None, time_limit: float | None = None
    ) -> Auction:
        """The auction of an input with its parts, as the program reads it. Raises what Auction(..)
        does.
        """
        auction = cls(rules="", program=program, time_limit=time_limit)
        auction._input = records.end_last_line(records.encode_text(input_text, "input"))
        return auction

    @classmethod
    def from_files(
        cls,
        rules: StrPath,
        forms: StrPath | Iterable[StrPath],
        groups: StrPath | None = None,
        *,
        allow_unended: bool = False,
        last_wins: bool = False,
        sheet: str | None = None,
        program: StrPath | None = None,
        time_limit: float | None = None,
    ) -> Auction:
        """The auction of a file of rules, a file for each form, and a file of groups, `"each"` or
        `"winners"`; nobody is left out without one.

        Files are read as `wdp-office gather` reads them: workbooks, of which `sheet` names the
        sheet, CSV with semicolons, UTF-16. Raises what Auction(..) does, NotFound if a file isn't
        there, and Refused if it can't be read, or if its last line has no end, as in a file that
        was cut off: `allow_unended` says that such files are complete. Warns of a workbook's
        cells that look different from others, or are under a condition, a comment or a drawing.
        """
        if isinstance(forms, (str, bytes, os.PathLike)):
            paths = [forms]
        else:
            paths = _check_list(forms, "forms")
        reader = PartReader(sheet=sheet, allow_unended=allow_unended)
        file = reader.read_rules(rules)
        names = find_names(file)
        texts: list[Text] = []
        for number, path in enumerate(paths, 1):
            texts.append(reader.read_form(path, number, names).text)
        lines: Groups = None
        if groups in (_EACH, _WINNERS):
            lines = str(groups)
        elif groups is not None:
            lines = encode(format_groups(reader.read_groups(groups).rows))
        return cls(
            rules=file.text,
            forms=texts,
            groups=lines,
            last_wins=last_wins,
            program=program,
            time_limit=time_limit,
        )

    @classmethod
    def from_audit(
        cls,
        path: StrPath,
        *,
        program: StrPath | None = None,
        time_limit: float | None = None,
    ) -> Auction:
        """The auction of an audit, as `wdp-office auction` and `results` and `Outcome.audit` have
        it, whose `outcome` is what the audit proves. Groups that were added for prices are groups
        of the auction then.

        Raises NotFound if the file isn't there, and Refused if it can't be read or `wdp verify`
        refuses it.
        """
        parts = list(parse_parts(_read_audit(path)))
        data = audits.join_parts(part for part in parts if part.kind in KINDS)
        auction = cls.from_text(data, program=program, time_limit=time_limit)
        auction._outcome = auction._verify_parts(parts)
        return auction

    def __repr__(self) -> str:
        counts = [
            _format_names("bidder", "bidders", self.bidders),
            _format_names("category", "categories", self.categories),
            format_count(sum(part.kind == "form" for part in parse_parts(self._input)), "form"),
        ]
        groups = format_count(len(list_groups(self._input)), "group")
        return f"<wdp.Auction with {', '.join(counts)} and {groups}>"

    @property
    def bidders(self) -> tuple[str, ...]:
        """The names of the bidders, in the order of the rules."""
        return self._list_names("bidder")

    @property
    def categories(self) -> tuple[str, ...]:
        """The names of the categories, in the order of the rules."""
        return self._list_names("category")

    @property
    def outcome(self) -> Outcome | None:
        """What is proved by the audit that the auction comes from; None if it doesn't come from
        one.
        """
        return self._outcome

    def input(
        self,
        solutions: Iterable[Solution] = (),
        certificates: Iterable[Text] = (),
        unique: Text | None = None,
        ties: Iterable[Solution] = (),
        prices: Text | None = None,
        cover: Text | None = None,
        rule: Text | None = None,
    ) -> bytes:
        """The input followed by these parts, as the program reads it: with certificates it is an
        audit, which `wdp verify` judges anywhere. Raises WrongArgument or Refused if a text would
        be more than its part.
        """
        certificate_texts = _check_list(certificates, "certificates")
        tie_texts = [
            records.format_solution(solution, f"tie {number}")
            for number, solution in enumerate(_check_list(ties, "ties"), 1)
        ]
        parts = _make_parts("solution", _format_solutions(solutions))
        parts += _make_parts("certificate", certificate_texts)
        parts += _make_parts("tie", tie_texts)
        claims = {"unique": unique, "prices": prices, "cover": cover, "rule": rule}
        parts += [
            records.make_part(head, text) for head, text in claims.items() if text is not None
        ]
        return self._input + b"".join(parts)

    def without(self, name: str) -> Auction:
        """The auction without a bidder's form, as if the bidder had withdrawn. The rules and the
        groups stay, so that columns keep their names.

        Raises WrongArgument if the rules have no such bidder, or it has no form.
        """
        if name not in self.bidders:
            raise WrongArgument(f"no bidder is called {records.show_value(name)}")
        if name not in list_form_bidders(self._input):
            raise WrongArgument(f"{name} has no form")
        return self._copy(remove_forms(self._input, [name]))

    def with_form(self, form: Text | tuple[str, Rows], *, missing_as_zero: bool = False) -> Auction:
        """The auction with this form of a bidder in the place of its earlier one, if it has one: a
        text, or a pair of a name and bids, as Auction(..) takes forms.

        Raises WrongArgument if this is no form, or the rules have no such bidder.
        """
        rules = next((part.text for part in parse_parts(self._input) if part.kind == "rules"), b"")
        (made,) = records.make_forms([form], rules, missing_as_zero)
        data = records.make_part("form", made.text)
        name = next(map(read_bidder, parse_parts(data)))
        if name not in self.bidders:
            raise WrongArgument(f"form: no bidder is called {records.show_value(name)}")
        return self._copy(put_form(self._input, str(name), data.partition(b"\n")[2]))

    def explain(self, bids: bool = False) -> Explained:
        """Everything that is wrong with the input: each finding has the refusal, the field and the
        cause. With `bids`, if nothing is wrong, the bids that are in no program, each with the
        bidder's name and why.
        """
        return explain(self._program, self._input, with_bids=bids)

    def compile(self, workers: int = 1) -> list[Program]:
        """The program of each group, in the order of the groups, written by 1 to 64 `workers`.

        Raises Refused if the rules, a form or a group has a fault, and WrongArgument for other
        numbers of workers.
        """
        flow = self._begin(_ANSWERS, workers=workers)
        with self._place_refusals():
            flow.compile()
        texts = flow.contents.read_all("program")
        lines = flow.contents.list_groups().values()
        return [
            Program(group=group, names=_list_left_out(line), text=text.decode())
            for group, (line, text) in enumerate(zip(lines, texts, strict=True), 1)
        ]

    def solve(
        self, solver: str | None = None, time_limit: float | None = None, workers: int = 1
    ) -> Solutions:
        """A point of each program: from `cbc`, from `highs` as scipy has it, or from a command as
        docs/OFFICE.md describes; by default from cbc if it is installed. That it is the best one is
        the solver's word.

        `time_limit` is in seconds, for each program; a solver that runs as a program gets them
        rounded up. Raises NotFound if the solver isn't there, NotSolved if it gives no point, and
        WrongArgument if it isn't known.
        """
        name = check_solver(solver)
        flow = self._begin(_ANSWERS, solver=name, time_limit=time_limit, workers=workers)
        self._find_outcome(flow)
        texts = [text.decode() for text in flow.contents.read_all("answer")]
        return Solutions(tuple(texts), name)

    def certify(
        self,
        solutions: Iterable[Solution] | None = None,
        ties: bool = False,
        time_limit: float | None = None,
    ) -> Outcome:
        """Certifies each group's solution, and verifies that: a better solution replaces one that
        isn't optimal. Without solutions the search begins from nothing, which may take long, unless
        a group that leaves out fewer has shown the same winners.

        With `ties` it also finds who else can win with group 1's total, and proves that nobody else
        can; it ends at 64 solutions beside the first, which is as many as an audit can list.
        `time_limit` is in seconds, for each search. Raises Refused if `report` does or a limit is
        reached, and Missing without numpy, scipy and swiglpk.
        """
        goals = Goals(finds_ties=ties, is_priced=False)
        flow = self._begin(goals, time_limit=time_limit)
        if solutions is not None:
            begun = [records.encode_text(x, "solution") for x in _format_solutions(solutions)]
            self._report("report", self.input(begun))
            for group, solution in enumerate(begun, 1):
                flow.contents.store.leave(name_file("answer", group), solution)
        self._find_outcome(flow)
        return self._make_outcome(flow, solver="certify")

    def prices(
        self,
        certified: Outcome | None = None,
        solver: str | None = None,
        time_limit: float | None = None,
    ) -> Outcome:
        """What is certified, by default what the auction's audit proves, with the prices of the
        rule: of those that cover every group of bidders and meet the reserves the ones of least
        sum, and of these the nearest to what each winner would pay alone, rounded up to whole
        pounds.

        Its report has them, and after the groups of the auction those that show them: each winner
        alone, and what binds the prices. `time_limit` is in seconds, for each solver's run and each
        certificate. Raises WrongArgument, which says what is missing, if nothing is certified, and
        else what `solve` and `certify` do.
        """
        outcome = self._check_certified(certified)
        name = check_solver(solver)
        flow = self._begin(Goals(), solver=name, time_limit=time_limit)
        _leave_outcome(flow.contents, outcome)
        self._find_outcome(flow)
        return self._make_outcome(flow, solver=name)

    def report(self, solutions: Iterable[Solution], workers: int = 1) -> Report:
        """Winners, total and opportunity cost of each group in pounds, from a solution for each:
        texts, or dicts of columns and values. That the solutions are feasible is tested exactly;
        that they are the best ones isn't.

        Raises Refused if one isn't a solution of its group's program, or there isn't one for each
        group.
        """
        report = self._report("report", self.input(solutions), workers)
        if self._awaits_winners and report:
            self._add_winners(report[0])
        return report

    def verify(
        self,
        solutions: Iterable[Solution],
        certificates: Iterable[Text],
        unique: Text | None = None,
        ties: Iterable[Solution] = (),
        workers: int = 1,
        *,
        prices: Text | None = None,
        cover: Text | None = None,
        rule: Text | None = None,
    ) -> Report:
        """The same as `report`, proved: a certificate for each group shows that no total is
        greater.

        With `ties`, other solutions of group 1 with the same total, the report has these, too, and
        with `unique`, a certificate that there are no others, all awards. With `prices`, a line
        `NAME PRICE` for each winner of group 1, and `cover`, a certificate that they cover every
        group, perhaps with `rule`, which shows that they are those of the rule, the report has
        `prices`; docs/REFERENCE.md has these texts. Raises Refused if `report` does, if a
        certificate doesn't show its bound, and if a claim doesn't hold.
        """
        audit = self.input(
            solutions,
            certificates,
            unique=unique,
            ties=ties,
            prices=prices,
            cover=cover,
            rule=rule,
        )
        return self._report("verify", audit, workers)

    def map(self, solution: Solution, group: int = 1) -> Allocation:
        """Winners and total in pounds of a solution of one group, by the group's number from 1.
        Raises Refused if it isn't a solution or there is no such group, and WrongArgument for
        numbers that no group has.
        """
        arguments = ["map", f"--group={records.format_whole(group, 'group')}"]
        output = self._ask(arguments, self.input([solution]))
        return answers.read_map(output, answers.ExpectedAnswer(self._input))

    def check(self, mps_text: Text | Program) -> Counts:
        """How many rows, columns and entries a 0-1 program in MPS has, whoever wrote it. Raises
        Refused if the text isn't of the profile that docs/REFERENCE.md describes.
        """
        text = mps_text.text if isinstance(mps_text, Program) else mps_text
        output = self._ask(["check"], records.encode_text(text, "program"))
        return answers.read_counts(output)

    def _copy(self, data: bytes) -> Auction:
        """An auction of another input, with the same program and limit."""
        copy = Auction.from_text(data, program=self._program, time_limit=self._time_limit)
        copy._awaits_winners = self._awaits_winners
        return copy

    def _list_names(self, kind: str) -> tuple[str, ...]:
        """The names in the rules' records of a kind."""
        parts = [part for part in parse_parts(self._input) if part.kind == "rules"]
        rows = chain.from_iterable(part.rows() for part in parts)
        return tuple(list_names(rows, kind))

    def _add_groups(self, names: Iterable[str]) -> None:
        """Adds a group of each of these bidders alone."""
        self._input = add_groups(self._input, names)

    def _add_winners(self, allocation: Allocation) -> None:
        """Adds each winner of the first group alone, which `groups="winners"` waits for."""
        self._awaits_winners = False
        self._add_groups(winner.bidder for winner in allocation.winners)

    def _ask(self, arguments: list[str], data: bytes) -> bytes:
        """What the program prints, of one group at most."""
        limits = Limits(answers.MOST_OF_GROUP, self._time_limit)
        with self._place_refusals():
            return ask(self._program, arguments, data, limits=limits)

    @contextmanager
    def _place_refusals(self) -> Iterator[None]:
        """Within this, the refusal of a form says which bid it is about, as it was given."""
        try:
            yield
        except Refused as refused:
            self._place(refused)
            raise

    def _place(self, refused: Refused) -> None:
        """Adds to the refusal of a form which bid it is about, as it was given."""
        if refused.part != "form" or not refused.number or refused.number > len(self._forms):
            return
        form = self._forms[refused.number - 1]
        refused.bidder = form.bidder
        # (the first record is the form's header, and fields are counted from 1)
        refused.row = dict(enumerate(form.rows, 2)).get(refused.record or 0)
        if form.columns:
            findings = explain(self._program, self._input).findings
            fields = [each.field or 0 for each in findings if each.refused.text == refused.text]
            first = form.columns[0] if refused.row is not None else None  # (else the bidder's name)
            columns = dict(enumerate([first, *form.columns[1:]], 1))
            refused.column = columns.get(fields[0]) if fields else None
        _describe_place(refused)

    def _report(self, command: str, data: bytes, workers: int = 1) -> Report:
        """What the program says of a text, by `report` or `verify`."""
        count = int(records.format_whole(workers, "workers"))
        with self._place_refusals():
            judgement = judge(self._program, command, data, workers=count, seconds=self._time_limit)
        return judgement.report

    def _begin(
        self,
        goals: Goals,
        *,
        solver: str | None = None,
        time_limit: float | None = None,
        workers: int = 1,
    ) -> Flow:
        """The steps of the auction, of which nothing is done yet, in memory."""
        means = Means(
            program=self._program,
            solver=solver,
            seconds=check_seconds(time_limit),
            workers=int(records.format_whole(workers, "workers")),
            program_seconds=self._time_limit,
        )
        contents = Contents(MemoryStore({INPUT: self._input}), goals)
        return Flow(contents, means, worker=DirectWorker())

    def _find_outcome(self, flow: Flow) -> None:
        """Does all steps before the report, and again once it is known which winners are groups."""
        with self._place_refusals():
            flow.find_outcome()
            if self._awaits_winners:
                kind = "solution" if flow.contents.goals.is_certified else "answer"
                first = flow.contents.read_all(kind)[0]
                self._add_winners(self.map(first))
                flow.contents.take_input(self._input)
                flow.find_outcome()

    def _make_outcome(self, flow: Flow, *, solver: str) -> Outcome:
        """What `wdp verify` says of what steps have left."""
        parts = list(parse_parts(flow.contents.format_audit()))
        return self._verify_parts(parts, solver=solver, limit=flow.pricer.limit)

    def _verify_parts(
        self, parts: Sequence[Part], *, solver: str = "audit", limit: str | None = None
    ) -> Outcome:
        """What `wdp verify` says of the parts of an audit."""
        shown = [part for part in parts if part.kind not in KINDS]
        data = audits.join_parts(part for part in parts if part.kind in KINDS)
        audit = audits.join_parts(shown) + records.end_last_line(data)
        unique = _list_texts(shown, "unique")
        return Outcome(
            report=self._report("verify", audit),
            solutions=Solutions(_list_texts(shown, "solution"), solver),
            certificates=_list_texts(shown, "certificate"),
            unique=unique[0] if unique else None,
            ties=_list_texts(shown, "tie"),
            audit=audit,
            input=self._input,
            program=self._program,
            limit=limit,
        )

    def _check_certified(self, certified: object) -> Outcome:
        """What is certified of this auction; WrongArgument says what is missing if nothing is."""
        outcome = self._outcome if certified is None else certified
        if not isinstance(outcome, Outcome):
            found_type = type(certified).__name__
            why = f"what Auction.certify gives is asked for, and this is of type {found_type}"
            raise WrongArgument(f"certified: {why}; {_describe_missing(certified)}")
        if outcome.input != self._input:
            hint = "call prices of the auction that was certified"
            raise WrongArgument(f"certified: this is of another auction; {hint}")
        return outcome


def _describe_missing(value: object) -> str:
    """What this lacks of what is certified, and which call gives it."""
    if isinstance(value, Report):
        return "a report has no solutions and no certificates; certify(solutions) gives all of it"
    if value is None:
        return "nothing is certified yet; certify() or certify(solve()) does it"
    return "certificates are missing; certify(solutions) finds them"


def _describe_place(refused: Refused) -> None:
    """Adds to the text of a refusal which bid it is about, by its place in what was given."""
    places = []
    if refused.row is not None:
        places.append(f"row {refused.row}")
    if refused.column is not None:
        places.append(f"column {refused.column}")
    if places:
        place = ", ".join([str(refused.bidder), *places])
        refused.text = escape(f"{refused.text} ({place})")
        refused.args = (refused.text,)


def _format_names(one: str, several: str, names: Sequence[str]) -> str:
    """Names with what they are of, of which there may be too many to list."""
    if not names:
        return f"no {several}"
    if len(names) == 1:
        return f"{one} {names[0]}"
    if len(names) > 4:
        return f"{len(names)} {several}"
    return f"{several} {', '.join(names[:-1])} and {names[-1]}"


def _make_parts(head: str, texts: Iterable[Text]) -> list[bytes]:
    """A part for each text, by their numbers."""
    return [records.make_part(head, text, number) for number, text in enumerate(texts, 1)]


def _list_texts(parts: Iterable[Part], kind: str) -> tuple[str, ...]:
    """The texts of an audit's parts of a kind."""
    return tuple(part.text.decode() for part in parts if part.kind == kind)


def _list_left_out(line: str) -> tuple[str, ...]:
    """The names in a line of groups, in its order."""
    return () if line == "-" else tuple(line.split("+"))


def _leave_outcome(contents: Contents, outcome: Outcome) -> None:
    """Leaves what steps would have left that found a certified outcome, but for its prices."""
    count = len(list_groups(outcome.input))
    pairs = zip(outcome.solutions.texts[:count], outcome.certificates[:count], strict=True)
    for group, (solution, certificate) in enumerate(pairs, 1):
        contents.leave_group(group, solution=solution.encode(), certificate=certificate.encode())
    contents.take_award(outcome.solutions.texts[0].encode())
    if outcome.ties or outcome.unique is not None:
        unique = None if outcome.unique is None else outcome.unique.encode()
        contents.leave_ties([text.encode() for text in outcome.ties], unique)


def _format_solutions(solutions: Iterable[Solution]) -> list[Text]:
    """Solutions as texts, those that are dicts written."""
    numbered = enumerate(_check_list(solutions, "solutions"), 1)
    return [
        records.format_solution(solution, f"solution {number}") for number, solution in numbered
    ]


def _check_list(values: Iterable[_Value], name: str) -> list[_Value]:
    """A list of values; WrongArgument if it is one text or no list."""
    if not records.is_list(values):
        raise WrongArgument(f"{name}: a list is asked for")
    return list(values)


def _read_audit(path: StrPath) -> bytes:
    """The bytes of an audit's file."""
    if not isinstance(path, (str, bytes, os.PathLike)):
        found_type = type(path).__name__
        raise WrongArgument(f"audit: a path is asked for, and this is of type {found_type}")
    try:
        return files.read(os.fsdecode(path), audits.MOST_OF_AUDIT, regular=True)
    except files.Unreadable as error:
        kind = NotFound if isinstance(error.__cause__, FileNotFoundError) else Refused
        raise kind(f"audit: {error.text}") from None
