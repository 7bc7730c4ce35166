"""What a page is told of a script beside its town: colours, attributes, and the rules that draw."""
from .colours import shade_of
from .script import rule_of, words_of


def lines_with_rules(lines, found):
    """The places of the lines that may be rules."""
    for command in found:
        if command.words in (["rules"], ["city"]):
            yield from (
                at
                for at in range(command.first + 1, min(command.last, len(lines)))
                if not lines[at].lstrip().startswith("lot")
            )
        elif command.words[:1] == ["put"]:
            yield command.first


def rules_that_draw(lines, found):
    """For each symbol the numbers of its rules that draw a solid, each with its line, from 1."""
    rules = {}
    for at in lines_with_rules(lines, found):
        rule = rule_of(lines[at])
        if rule and "I" in words_of(lines[at]):
            rules.setdefault(rule[1], {})[rule[0]] = at + 1
    return {symbol: sorted(drawing.items()) for symbol, drawing in rules.items()}


def colours(lines, found):
    symbols = {rule[1] for rule in (rule_of(lines[at]) for at in lines_with_rules(lines, found)) if rule}
    return {symbol: shade_of(symbol) for symbol in sorted(symbols)}


def head_of(lines, found, answers):
    """What a page is told of a script that nothing is refused in."""
    return {"rules": rules_that_draw(lines, found), "attributes": attributes(lines, found, answers)}


def attributes(lines, found, answers):
    """The value of each attribute as the script leaves it, by the lines that were accepted."""
    values = {}
    for command, answer in zip(found, answers):
        if answer[0] != "# ok":
            continue
        if command.words in (["rules"], ["city"]):
            told = (
                words_of(lines[at])
                for at in range(command.first + 1, command.last)
                if lines[at].lstrip().startswith("attr")
            )
            values = {words[1]: "".join(words[3:]) for words in told if len(words) > 3}
        elif command.words[:1] == ["attr"] and command.words[1] in values:
            values[command.words[1]] = "".join(command.words[3:])
    return values
