"""Steps one after the other in this process, each of which raises what goes wrong."""
from collections.abc import Mapping

from wdp.runs.solutions import Settler
from wdp.steps import Step
from wdp.texts.refusals import NotSolved


class DirectWorker:
    """Does steps in this process."""

    def do(self, step: Step, name: str) -> int:
        """Does a step, which raises why it fails; 0."""
        step()
        return 0

    def settle(self, settler: Settler, lines: Mapping[int, str]) -> bool:
        """Settles the groups that aren't settled; a NotSolved says of which group."""
        for group, line in lines.items():
            if settler.contents.is_done(group):
                continue
            try:
                settler.settle(group)
            except NotSolved as failed:
                text = f"group {group} ({line} left out): {failed.text}"
                raise NotSolved(text, failed.status, group) from None
        return True
