"""The input at the end of an audit, without the groups that comments say were added to it."""
import pytest

from wdp import audits
from wdp.texts.parts import add_groups
from wdp.texts.refusals import Refused

RULES = b"%rules\nrules,1,1,,\ncategory,A,1,0,0\nbidder,Alpha,0,1,\nbidder,Beta,0,1,\n"
FORMS = b"%form\nAlpha,A\n2,1\n%form\nBeta,A\n1,1\n"
CERTIFICATES = b"%certificate\nbound 1 C1 2\n%certificate\nbound 1 C1 1\n"
SOLUTIONS = [b"X1_1 1\n", b"X2_1 1\n"]
INPUTS = [
    RULES + FORMS + b"%groups\n-\n",
    RULES + FORMS + b"%groups\n-",
    RULES + b"%groups\n-\n" + FORMS,
    RULES + b"%groups\r\n-\r\n" + FORMS.replace(b"\n", b"\r\n"),
]


def make_audit(data: bytes, solutions: list[bytes], added: list[str]) -> bytes:
    """The audit of an input to which these groups are added."""
    parts = b"".join(b"%solution\n" + solution for solution in solutions)
    return parts + CERTIFICATES + add_groups(data, added)


def mark_last(data: bytes) -> list[bytes]:
    """The solutions, the last of which is that of a group that was added."""
    return [SOLUTIONS[0], *audits.mark_added(SOLUTIONS[1:], data)]


@pytest.mark.parametrize("data", INPUTS)
def test_groups_that_were_added_are_not_of_the_input(data: bytes) -> None:
    """Whether the line before them was ended or not."""
    audit = make_audit(data, mark_last(data), ["Alpha"])
    assert audits.find_input(audit, "audit.txt") == data


@pytest.mark.parametrize("data", INPUTS)
def test_groups_that_no_comment_marks_are_of_the_input(data: bytes) -> None:
    audit = make_audit(data, SOLUTIONS, ["Alpha"])
    assert audits.find_input(audit, "audit.txt") == add_groups(data, ["Alpha"])


def test_each_solution_is_marked() -> None:
    solutions = audits.mark_added([b"X1_1 1\n", b"", b"X2_1 1\n"], INPUTS[1])
    assert solutions == [
        b"# added after an unended line\nX1_1 1\n",
        b"# added\n",
        b"# added\nX2_1 1\n",
    ]


ALPHA = b"# added\nX1_1 1\n"
BETA = b"# added\nX2_1 1\n"
# solutions with comments that can't be right, as of all groups, or of the first and not the last
WRONG = [[ALPHA, BETA], [ALPHA, SOLUTIONS[1]], [SOLUTIONS[0], SOLUTIONS[1], BETA], [BETA]]


@pytest.mark.parametrize("solutions", WRONG)
def test_comments_that_cannot_be_right_count_for_nothing(solutions: list[bytes]) -> None:
    audit = make_audit(INPUTS[0], solutions, ["Alpha"])
    assert audits.find_input(audit, "audit.txt") == add_groups(INPUTS[0], ["Alpha"])


@pytest.mark.parametrize("text", [b"", CERTIFICATES, INPUTS[0], INPUTS[0] + CERTIFICATES])
def test_an_audit_ends_with_the_input(text: bytes) -> None:
    with pytest.raises(Refused, match="^a.txt: it doesn't end with the input, after solutions"):
        audits.find_input(text, "a.txt")


@pytest.mark.parametrize(
    "text, is_audit",
    [(INPUTS[0], False), (b"%solution\n" + INPUTS[0], False), (b"%certificate\n", True)],
)
def test_an_audit_has_certificates(text: bytes, is_audit: bool) -> None:
    assert audits.is_audit(text) == is_audit


@pytest.mark.parametrize(
    "solution, mark",
    [
        (b"# award 3\nX1_1 1\n", b"# award 3\n"),
        (b"# added\nX1_1 1\n", b"# added\n"),
        (b"# added after an unended line\n", b"# added after an unended line\n"),
        (b"# added later\nX1_1 1\n", b""),
        (b"X1_1 1\n# added\n", b""),
    ],
)
def test_the_mark_of_a_solution(solution: bytes, mark: bytes) -> None:
    assert audits.find_mark(solution) == mark
