"""Which rule each shape of a town took. A shape that is made at the end of each body tells it in the trace; it is a point far
away, so that no other shape meets it, and comes behind all children, so that their seeds stay."""
from collections import Counter
from typing import Callable, Dict, Iterator, List, NamedTuple, Tuple

from ..layout import GREATEST
from ..replies import replies
from ..script import Rule, commands, is_version, opens_block, rule_in, text_of, tokens, without

FAR = 10**7
MOST_RULES = 512
Answer = Callable[[bytes], List[str]]


class Fates(NamedTuple):
    """By symbol how many shapes there were; by rule how many took it; by symbol and code how many came to nothing."""

    shapes: Counter
    taken: Counter
    faults: Counter


def several(lines: List[str]) -> Dict[int, str]:
    """The rules, by number, of symbols that have more than one, each with a symbol for the shape that tells it."""
    found = {at: rule for at, rule in ((at, rule_in(line)) for at, line in enumerate(lines)) if rule}
    many = Counter(symbol for _, symbol in {(rule.number, rule.symbol) for rule in found.values()})
    start = "took"
    while any(name.startswith(start) for rule in found.values() for name in (rule.symbol, *rule.names)):
        start += "_"
    return {rule.number: f"{start}{rule.number}" for rule in found.values() if many[rule.symbol] > 1}


def marked(line: str, symbol: str) -> str:
    """The rule with a shape of that symbol at the end of each body."""
    mark, text, at, is_body = f" [ T({FAR}, 0, 0) S(0, 0, 0) {symbol} ]", "", 0, False
    ends = [(column - 1, word) for column, word in top_level(line)]
    for column, word in [*ends, (len(code_of(line)), "end")]:
        body = line[at:column].rstrip()
        text += (mark if body.strip() == "NIL" else body + mark) + " " if is_body else line[at:column]
        at, is_body = column, word == "->" or is_body and word == "end"
        if word == "->":
            text, at = text + "->", column + 2
    return text


def code_of(line: str) -> str:
    return line.partition("#")[0]


def top_level(line: str) -> List[Tuple[int, str]]:
    """The arrows of a rule, and the colons before its probabilities, with their columns."""
    depth, found, arrows = 0, [], 0
    for column, word in tokens(line):
        depth += (word in "([{") - (word in ")]}")
        arrows += word == "->"
        if not depth and (word == "->" or word == ":" and arrows):
            found.append((column, word))
    return found


def free_numbers(lines: List[str]) -> Iterator[int]:
    """Numbers that no rule has, from the greatest on."""
    used = {rule.number for rule in map(rule_in, lines) if rule}
    return (number for number in range(GREATEST, 0, -1) if number not in used)


def telling(lines: List[str], symbols: Dict[int, str]) -> List[str]:
    """The script whose trace tells the rules that were taken."""
    found = without(lines, "quiet", "print", "model", "trace", "dump", "grammar", "bill", "faults")
    heads = [f"{number}: {symbol} -> NIL" for number, symbol in zip(free_numbers(lines), symbols.values())]
    opening = {
        command.first
        for command in commands(lines)
        if opens_block(command.words, True) and command.words[0] in ("rules", "city")
    }
    told: List[str] = []
    for at, line in enumerate(found):
        rule = rule_in(line)
        told.append(marked(line, symbols[rule.number]) if rule and rule.number in symbols else line)
        told += heads if at in opening else []
    first = commands(lines)
    is_second = bool(first) and is_version(first[0].words)
    return [*([] if is_second else ["version 2"]), *told, "trace"]


def fates(lines: List[str], answer: Answer) -> Fates:
    """The fates at the script's end; empty where there are too many rules."""
    symbols = several(lines)
    rules = {rule.number for rule in map(rule_in, lines) if rule}
    result = Fates(Counter(), Counter(), Counter())
    if len(rules) + len(symbols) > MOST_RULES:
        return result
    by_symbol = {symbol: number for number, symbol in symbols.items()}
    for line in trace_of(answer(text_of(telling(lines, symbols)))):
        _, _, _, _, symbol, _, _, outcome = line.split()
        if symbol in by_symbol:
            result.taken[by_symbol[symbol]] += 1
        else:
            result.shapes[symbol] += 1
            result.faults.update([] if outcome.isdigit() else [(symbol, outcome)])
    return result


def trace_of(out: List[str]) -> List[str]:
    last = [reply for reply in replies(out) if reply[0].startswith("# trace ")]
    return last[-1][1:] if last else []


def fate_of(rule: Rule, known: Fates, is_only: bool) -> str:
    """What became of a rule, in words; nothing where no town is there."""
    shapes = known.shapes[rule.symbol]
    if not known.shapes:
        return ""
    if not shapes:
        return f"no shape of `{rule.symbol}` is there"
    lost = sum(many for (symbol, _), many in known.faults.items() if symbol == rule.symbol)
    taken = shapes - lost if is_only else known.taken[rule.number]
    return f"taken by {taken:,} of {shapes:,} shapes"
