"""Closes a desk, opens its forms, and judges all receipts."""
from desk_trials.desks import DeskFolder, find_wdp, run
from trials.desk_judge import Judge, read_entries


def settle(desk: DeskFolder, judge: Judge) -> bool:
    """Closes, opens, and judges with what `wdp forms` prints; whether nothing is wrong."""
    desk.desk("close")
    desk.desk("open", desk.holder, desk.beside / "out")
    forms = run(find_wdp(), "forms", desk.beside / "out/input.txt")
    journal = desk.journal.read_bytes()
    wrong = judge.judge(journal, forms)
    entries = len(list(read_entries(journal)))
    print(f"{len(judge.receipts)} receipts, {len(wrong)} lost or wrong; {entries} entries")
    for text in wrong[:3]:
        print("WRONG", text)
    return not wrong
