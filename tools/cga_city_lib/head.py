"""What the jobs of a region have in common, as the program says it again."""
from typing import Any, List

from .call import Refused
from .printed import asking
from .program import run
from .replies import is_refused, replies
from .script import commands, text_of


class Head:
    """Assets and dresses, and the lines of a `city` block without lots."""

    def __init__(self, dressed: List[str], city: List[str]):
        self.dressed, self.city = dressed, city

    def asks(self) -> List[str]:
        """The numbers of the rules that ask."""
        return asking(self.city)

    def grammar(self) -> str:
        """The text that `grammar` replies."""
        return "\n".join(["rules", *(line for line in self.city if not line.startswith("order ")), "end", ""])

    def script(self, lots: List[str], asked: List[str]) -> bytes:
        """The script of a job."""
        return text_of(["version 2", "quiet", *self.dressed, "city", *self.city, *lots, "end", *asked])


def head_of(region: Any, program: Any) -> Head:
    """What the program makes of a region's head. Refused where it refuses a line of it."""
    places = sorted(region.dressed + region.city)
    lines = [region.lines[at] for at in places] + ["dump"]
    status, out = run(program, text_of(["version 2"] + lines))
    answers, found = list(replies(out))[1:], commands(["version 2"] + lines)[1:]
    if status or len(answers) < len(found):
        raise Refused(f"no answer: {program} ended with status {status}")
    for command, answer in zip(found, answers):
        if is_refused(answer):
            at = (places + places[:1] + [0])[command.first - 1]
            raise region.refused(at, f"{answer[0][2:]}; tools/lint says what is wrong")
    dump = answers[len(found) - 1]
    return Head([region.lines[at] for at in region.dressed], dump[dump.index("city") + 1 : -1])
