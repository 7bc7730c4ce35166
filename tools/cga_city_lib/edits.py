"""The edits by which a running program goes from some sources to those of a script."""
from collections import namedtuple

from .plain_script import same

# what is sent; the place of the command that it stands for; the line of that block which it says, with the length of
# what stands before it, or None; and what it does to the sources
Edit = namedtuple("Edit", "lines command place change")


class Ways:
    """From the sources that are there to new ones, which the lines and commands of a script say."""

    def __init__(self, old, new, lines, commands):
        self.now, self.new, self.lines, self.commands, self.found = old.copy(), new, lines, commands, []

    def goes(self, edit):
        edit.change(self.now)
        self.found.append(edit)

    def said(self, told, change, head=""):
        """An edit that is a line of the script, perhaps behind a head."""
        command = self.commands[told.command]
        place = (told.at - command.first, len(head)) if command.is_block else None
        return Edit([head + self.lines[told.at]], told.command, place, change)

    def lots_gone(self):
        for name in [name for name in self.now.lots if name not in self.new.lots]:
            self.goes(Edit([f"unlot {name}"], self.new.block, None, lambda sources, name=name: sources.lots.pop(name)))

    def attributes(self):
        for name, told in self.new.attributes.items():
            if self.now.attributes[name].text != told.text:
                self.goes(
                    self.said(told, lambda sources, name=name, told=told: sources.attributes.update({name: told}))
                )

    def lots(self):
        for name, told in self.new.lots.items():
            if name not in self.now.lots or self.now.lots[name].text != told.text:
                self.goes(self.said(told, lambda sources, name=name, told=told: sources.lots.update({name: told})))

    def rules(self):
        old, new = self.now.rules, self.new.rules
        changed, gone = [number for number in new if not same(old.get(number), new[number])], [
            number for number in old if number not in new
        ]
        is_same = list(self.now.attributes) == list(self.new.attributes) and self.now.order == self.new.order
        if not is_same:
            self.goes(self.block())
        elif changed or gone:
            self.goes(self.one_priority(changed, gone) or self.one_rule(changed, gone) or self.block())

    def one_rule(self, changed, gone):
        """The edit that puts the one rule that changed, or drops the one that is gone."""
        if len(changed) + len(gone) != 1:
            return None
        if gone:
            return Edit([f"drop {gone[0]}"], self.new.block, None, lambda sources: sources.rules.pop(gone[0]))
        rule, head = self.new.rules[changed[0]], f"put {self.new.rules[changed[0]].priority} "
        place = (rule.at - self.commands[self.new.block].first, len(head))
        return Edit(
            [head + self.lines[rule.at]],
            self.new.block,
            place,
            lambda sources: sources.rules.update({changed[0]: rule}),
        )

    def one_priority(self, changed, gone):
        """The edit that sets the priority of the one symbol whose rules changed in nothing else."""
        old, new = self.now.rules, self.new.rules
        symbols, priorities = {new[number].symbol for number in changed}, {new[number].priority for number in changed}
        if gone or len(symbols) != 1 or len(priorities) != 1 or any(number not in old for number in changed):
            return None
        symbol, priority = symbols.pop(), priorities.pop()
        moved = {number: rule._replace(priority=priority) for number, rule in old.items() if rule.symbol == symbol}
        if any(not same(rule, new.get(number)) for number, rule in moved.items()) or set(changed) - set(moved):
            return None
        return Edit(
            [f"priority {symbol} {priority}"], self.new.block, None, lambda sources: sources.rules.update(moved)
        )

    def block(self):
        """The edit that is the script's block."""
        command = self.commands[self.new.block]
        return Edit(self.lines[command.first : command.last + 1], self.new.block, None, self.set_block)

    def set_block(self, sources):
        sources.rules, sources.attributes, sources.order = (
            dict(self.new.rules),
            dict(self.new.block_attributes),
            self.new.order,
        )
        if self.new.head == "city":
            sources.lots = dict(self.new.block_lots)

    def city(self):
        """In version 2, the edit that sets rules and lots at once; only so lots get another order."""
        lines = city_block(self.new, self.lines, self.commands[self.new.block])
        self.goes(
            Edit(
                lines,
                self.new.block,
                None,
                lambda sources: (self.set_block(sources), sources.__dict__.update(lots=dict(self.new.lots))),
            )
        )


def city_block(sources, lines, command):
    """In version 2, the block that sets rules and lots at once; those that stand in the script's block stay there."""
    behind = [lines[told.at] for told in sources.lots.values() if not command.first < told.at < command.last]
    return ["city", *lines[command.first + 1 : command.last], *behind, "end"]


def city_of(sources, lines, command):
    """The lines that lead to a script's sources from nothing, and how many commands they are."""
    values = [lines[told.at] for told in sources.attributes.values() if not command.first < told.at < command.last]
    return [*city_block(sources, lines, command), *values], 1 + len(values)


def edits(old, new, lines, commands):
    """The edits, or None where none lead there."""
    if (old.is_second, old.head, old.assets) != (new.is_second, new.head, new.assets):
        return None
    ways = Ways(old, new, lines, commands)
    stay = [name for name in old.lots if name in new.lots]
    if stay + [name for name in new.lots if name not in old.lots] == list(new.lots):
        ways.lots_gone()
        ways.rules()
    elif new.head == "city":
        ways.goes(ways.block())
    elif new.is_second:
        ways.city()
    else:
        return None
    ways.attributes()
    ways.lots()
    return ways.found if list(ways.now.lots) == list(new.lots) else None
