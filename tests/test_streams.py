"""The program when its streams and its system fail: closed streams, full disks, readers that go away, outputs that take few
bytes, inputs that fail or don't end, no threads, one processor, little stack and memory, refused requests; and the threads that it
starts. Each run ends by itself, with its status, one line at most on standard error, and nothing on standard output where it is refused."""

import contextlib
import fcntl
import os
import resource
import subprocess
import tempfile
from functools import partial

import pytest
from commands import ROOT, read_text
from trials.cases import read_case
from trials.program_runs import TIME_LIMIT, done, encoded, refusals, refused, row, seen, written_of
from trials.worked import FOUR_COLUMNS, GAMMA, NO_COLUMN, ONE_COLUMN, SOLUTION_OF_ALL, WINNERS
from trials.worked import auction, rules_and

MIB = 1 << 20
PAGE = 4096
INPUT_LIMIT = 128 << 20
# what docs/wdp.1 says; and from 24 kB on the program gets to its first call, where words and environment are short
STACK = 512 << 10
LEAST_STACK = 128 << 10

# Each command with an input and its output; and with the most groups there are, each the empty one: outputs of half a megabyte.
NAMES = "one_form compile_gamma_and_all check_one_form map_three_winners report_cost_of_beta_by_2".split()
NAMES += ["forms_json", "report_json", "verify_json"]
CASES = {name: read_case(name) for name in NAMES}
COMMANDS = {name: (it.words(), it.stdin, it.stdout) for name, it in CASES.items()}
TEXT = rules_and(GAMMA)
NUMBERS = range(1, 1025)
LONG = auction("-\n" * len(NUMBERS))
LONG_OUTPUT = "".join(f"* program {k} -\n{FOUR_COLUMNS}" for k in NUMBERS)
LONG_REPORT = LONG + ("%solution\n" + SOLUTION_OF_ALL) * len(NUMBERS)
OF_LONG_REPORT = "".join(f"group {k} -\n{WINNERS}cost 0\n" for k in NUMBERS)
LONG_COMMANDS = {"long compile": (["compile"], LONG, LONG_OUTPUT)}
LONG_COMMANDS["long report"] = ["report"], LONG_REPORT, OF_LONG_REPORT
WORKERS = ["--workers", "64"]
BY_64 = {f"{name} by 64": (it[0] + WORKERS, *it[1:]) for name, it in LONG_COMMANDS.items()}

FAULTY = TEXT.replace("12,0,1", "1,0,1")
FAULT = refused("form 1: 12 BelowReserve at record 2")
UNREAD = refused("input: read failed")
TOO_LARGE = refused("input: too large")
UNWRITTEN = refused("write failed after 0 bytes")
UNTOLD = (1, b"", b"")
OUT_OF_MEMORY = refused("out of memory")
TOO_LITTLE_STACK = refused("too little stack: ulimit -s 512 allows enough")


def rows(table, names="words, text, output"):
    return pytest.mark.parametrize(names, table.values(), ids=table)


def with_limit(what, size):
    return {"preexec_fn": lambda: resource.setrlimit(what, (size, size))}


@pytest.fixture
def failed(wdp, failing):
    """A run whose system fails it as the words say that name what fails."""

    def run(words, text, **fails):
        env = {**os.environ, "LD_PRELOAD": failing, **{it: str(fails[it]) for it in fails}}
        return seen(wdp, words, text, env=env)

    return run


@contextlib.contextmanager
def small_pipe():
    """A pipe that holds a page. Its ends are closed by whoever is done with them, or at last."""
    ends = os.pipe()
    fcntl.fcntl(ends[1], fcntl.F_SETPIPE_SZ, PAGE)
    with open(ends[0], "rb", buffering=0) as reader, open(ends[1], "wb", buffering=0) as writer:
        yield reader, writer


# which of input, output and standard error are closed from the start, which are full, and what comes of it
FAILING = [
    *((["text"], TEXT, files, "", UNREAD) for files in ("0", "01")),
    *((["text"], TEXT, files, "", UNTOLD) for files in ("02", "12", "012")),
    (["text"], TEXT, "1", "", UNWRITTEN),
    (["text"], TEXT, "2", "", done(ONE_COLUMN)),
    (["text"], FAULTY, "2", "", UNTOLD),
    (["text"], FAULTY, "1", "", FAULT),
    (["text"], FAULTY, "", "1", FAULT),
    (["text"], FAULTY, "", "2", UNTOLD),
    (["--help"], "", "", "1", UNWRITTEN),
    (["compile"], auction(""), "", "1", done("")),
    (["lots"], "", "", "2", (2, b"", b"")),
]


@pytest.mark.parametrize("words, text, closed, full, wanted", FAILING)
def test_streams_that_fail(wdp, words, text, closed, full, wanted):
    closing = {"preexec_fn": lambda: [os.close(int(it)) for it in closed]}
    with open("/dev/full", "wb") as none:
        streams = {name: none for n, name in (("1", "stdout"), ("2", "stderr")) if n in full}
        assert seen(wdp, words, text, **closing, **streams) == wanted


@rows(COMMANDS)
def test_nothing_can_be_written(wdp, words, text, output):
    """The disk is full, or the reader is gone."""
    with small_pipe() as (reader, writer), open("/dev/full", "wb") as full:
        reader.close()
        for target in (writer, full):
            assert seen(wdp, words, text, stdout=target) == UNWRITTEN
            assert seen(wdp, words, text, stdout=target, stderr=target) == UNTOLD


@rows({**COMMANDS, **LONG_COMMANDS})
def test_disk_that_fills_up(wdp, words, text, output):
    """After each number of bytes, or where blocks end; without a signal."""
    around = [1, 65_535, 65_536, 65_537, 131_071, 131_072, 131_073, len(output) - 1, len(output)]
    for size in around if len(output) > PAGE else range(len(output) + 1):
        # (Python ignores SIGXFSZ, and so does what it starts then)
        disk = {**with_limit(resource.RLIMIT_FSIZE, size), "restore_signals": False}
        with tempfile.TemporaryFile() as target, row(f"a disk of {size} bytes"):
            status, _, faults = seen(wdp, words, text, stdout=target, **disk)
            target.seek(0)
            is_cut = size < len(output)
            line = b"wdp: write failed after %d bytes\n" % size if is_cut else b""
            assert (status, target.read(), faults) == (is_cut, encoded(output)[:size], line)


@rows(LONG_COMMANDS)
def test_reader_that_takes_some_bytes(wdp, tmp_path, words, text, output):
    """Where it goes those were written, and at most what the pipe holds beside them; or it takes all in small pieces."""
    (tmp_path / "input").write_text(text)
    last = len(output) - 2 * PAGE  # beyond it the rest may fit into the pipe
    for size in (0, 1, 1000, PAGE, 3 * PAGE + 5, min(65_536, last), last, len(output)):
        given = (tmp_path / "input").open()
        with small_pipe() as (reader, writer), given, row(f"{size} bytes"):
            streams = {"stdin": given, "stdout": writer, "stderr": subprocess.PIPE}
            child = subprocess.Popen([wdp, *words], **streams)
            writer.close()
            read = b""
            while len(read) < size and (more := reader.read(min(997, size - len(read)))):
                read += more
            reader.close()
            line = child.communicate(timeout=TIME_LIMIT)[1]
            is_cut = size < len(output)
            assert (child.returncode, read) == (is_cut, encoded(output)[:size])
            assert size <= written_of(line) <= size + PAGE if is_cut else not line


AT_A_TIME = [(most, it) for most in (1, 7) for it in COMMANDS.values()]
AT_A_TIME += [(4093, it) for it in LONG_COMMANDS.values()]


@pytest.mark.parametrize("most, run", AT_A_TIME)
def test_output_that_takes_few_bytes_at_a_time(failed, most, run):
    assert failed(*run[:2], MOST_WRITTEN=most) == done(run[2])


def test_long_output_into_a_pipe_that_does_not_wait(wdp):
    with small_pipe() as (reader, writer):
        os.set_blocking(writer.fileno(), False)
        status, _, line = seen(wdp, ["compile"], LONG, stdout=writer)
        os.set_blocking(reader.fileno(), False)
        read = reader.read(2 * PAGE)
        assert (status, written_of(line)) == (1, len(read))
        assert read and encoded(LONG_OUTPUT).startswith(read)


UNREADABLE = [(ROOT, os.O_RDONLY), ("/proc/self/mem", os.O_RDONLY), ("/dev/null", os.O_WRONLY)]


@rows(COMMANDS)
def test_input_that_fails_or_has_no_end(wdp, words, text, output):
    with small_pipe() as (empty, _), open("/dev/zero", "rb") as endless:
        os.set_blocking(empty.fileno(), False)
        for given in (empty, *(os.open(*it) for it in UNREADABLE)):
            assert seen(wdp, words, given) == UNREAD
        assert seen(wdp, words, endless) == TOO_LARGE


def test_input_that_fails_after_each_number_of_bytes(failed):
    for size in range(len(TEXT) + 1):
        with row(f"{size} bytes"):
            assert failed(["text"], TEXT, READ_FAILS_AFTER=size) == UNREAD


def test_where_the_reading_of_a_long_input_stops(wdp):
    with tempfile.TemporaryFile() as file:
        file.truncate(INPUT_LIMIT + 64 * MIB)
        assert seen(wdp, ["text"], file) == TOO_LARGE
        assert os.lseek(file.fileno(), 0, os.SEEK_CUR) == INPUT_LIMIT + 1


WITHOUT_THREADS = {
    **{name: (*it[:2], done(it[2]), name != "check_one_form") for name, it in COMMANDS.items()},
    "compile by 64 workers": (["compile", *WORKERS], LONG, done(LONG_OUTPUT), True),
    "a refusal": (["text"], FAULTY, FAULT, True),
    "no form": (["text"], rules_and(), done(NO_COLUMN), False),
}


@rows(WITHOUT_THREADS, "words, text, wanted, wants_some")
def test_no_threads(failed, words, text, wanted, wants_some):
    """Where no thread starts, the run ends as with threads or, where it wants some, tells that memory is short."""
    came = failed(words, text, NO_THREADS=1)
    assert came == wanted or wants_some and came == OUT_OF_MEMORY


@pytest.mark.parametrize("workers", [1, 2, 3, 7, 64])
@pytest.mark.parametrize("command", ["compile", "report", "verify"])
def test_as_many_workers_as_the_words_say(failed, tmp_path, command, workers):
    """The caller is among them: what several start is that many threads more."""
    verified = read_text("examples", "verified.txt")
    text = {"compile": LONG, "report": LONG_REPORT, "verify": verified}[command]

    def came(*words):
        (tmp_path / "starts").write_bytes(b"")
        end = failed([command, *words], text, STARTS=tmp_path / "starts")
        return end, (tmp_path / "starts").stat().st_size

    end, started = came()
    assert came("--workers", str(workers)) == (end, started + workers - 1)


@rows({**LONG_COMMANDS, **BY_64})
def test_one_processor(wdp, words, text, output):
    own = {min(os.sched_getaffinity(0))}
    alone = {"preexec_fn": lambda: os.sched_setaffinity(0, own)}
    assert seen(wdp, words, text, **alone) == done(output)


@rows({**COMMANDS, **BY_64})
def test_small_stack(wdp, words, text, output):
    with_stack = partial(with_limit, resource.RLIMIT_STACK)
    assert seen(wdp, words, text, **with_stack(STACK)) == done(output)
    assert seen(wdp, ["text"], FAULTY, **with_stack(STACK)) == FAULT
    for size in (*range(LEAST_STACK, STACK, 64 << 10), STACK - 1):
        with row(f"{size} bytes"):
            assert seen(wdp, words, text, **with_stack(size)) == TOO_LITTLE_STACK


WITH_LITTLE_MEMORY = {
    **{name: it[:2] for name, it in COMMANDS.items()},
    "a refusal": (["text"], FAULTY),
    "help": (["--help"], ""),
    "wrong words": (["lots"], ""),
    "long compile": BY_64["long compile by 64"][:2],
}


@rows(WITH_LITTLE_MEMORY, "words, text")
def test_little_memory(wdp, words, text):
    """However little memory there is, a run ends as with enough, or says that it is out of memory, and by no signal: the
    stack is asked for before anything else, and memory may be refused."""
    with_memory = partial(with_limit, resource.RLIMIT_AS)
    step = 16 << 10
    sizes = range(MIB, 64 * MIB, step)
    # with so much the program starts
    short = (it for it in sizes if seen(wdp, ["--version"], "", **with_memory(it)) == OUT_OF_MEMORY)
    least = next(short)
    wanted = seen(wdp, words, text)
    steps = range(0, 2048, 16) if text == LONG else range(64)
    for size in (least + step * n for n in steps):
        with row(f"{size >> 10} kB"):
            assert seen(wdp, words, text, **with_memory(size)) in (wanted, OUT_OF_MEMORY)


SMALL = """one_form no_form form_repeated_package unknown_part three_forms compile_gamma_and_all map_three_winners
report_cost_of_beta_by_2 check_one_form pools_unknown_pool values_and_pools_report verify_worked_is_unique
verify_two_equal_bids_tie verify_tie_through_a_dropped_bid verify_tie_of_a_broken_row explain_all_faults
explain_nothing_wrong explain_bids_each_reason"""


@pytest.mark.parametrize("name", SMALL.split())
def test_each_request_is_refused(wdp, failing, tmp_path, name):
    """Run n refuses its allocation or thread start n, until runs meet no refusal."""
    case = read_case(name)
    number = 0
    for number, is_refused, env in refusals(failing, tmp_path):
        given = seen(wdp, case.words(), case.stdin, env=env)
        with row(f"request {number}"):
            assert given == case.wanted() or is_refused() and given == OUT_OF_MEMORY
    assert number > 10, "there were few requests to refuse"


@pytest.mark.parametrize("old", [None, b"of an earlier run"])
def test_a_refused_request_leaves_no_file_beside_the_output(wdp, failing, tmp_path, old):
    """Run n refuses its allocation n: the output is whole, or what was there before is, and no new file lies beside it."""
    folder = tmp_path / "folder"
    folder.mkdir()
    output = folder / "out"
    words = ["text", "-o", str(output)]
    number = 0
    for number, is_refused, env in refusals(failing, tmp_path):
        output.unlink(missing_ok=True)
        if old is not None:
            output.write_bytes(old)
        given = seen(wdp, words, TEXT, env=env)
        is_whole = given == done("")
        left = {path.name: path.read_bytes() for path in folder.iterdir()}
        kept = {} if old is None else {"out": old}
        with row(f"request {number}"):
            assert is_whole or is_refused() and given == OUT_OF_MEMORY
            assert left == ({"out": ONE_COLUMN.encode()} if is_whole else kept)
    assert number > 10, "there were few requests to refuse"
