"""The words of a tool, which argparse reads: which files they name, and what is said where one is wrong."""
import argparse
import re
from argparse import ArgumentTypeError
from typing import Any, Callable, Dict, Iterator, List, Sequence, Tuple

from .given_files import Target, check_files
from .strangers_text import told
from .wrong_word import WrongValue, WrongWord

NUMBER = re.compile(r"-[\d.]")  # how a word begins that is a number below 0, and no option
MARK = "\0"  # stands before a word that is no option though it begins with a dash; no system gives it in a word
MISSING = "the following arguments are required: "
FORMS = (  # what argparse says of a word, and what is said here; the rest is a sentence of the word's type
    (re.compile("expected (?:at least )?one argument"), "{} takes a value, and none is given", True),
    (re.compile(r"expected (\d+) arguments?"), "{} takes {} values, and fewer are given", True),
    (re.compile("not allowed with argument (.*)"), "{} doesn't go with {}: say one of them", False),
    (re.compile("ignored explicit argument .*", re.DOTALL), "{} takes no value, and one stands behind it", False),
    (re.compile("((?:takes|is) .*)", re.DOTALL), "{} {}", False),
    (re.compile("(.*)", re.DOTALL), "{}: {}", False),
)


def listed(names: Sequence[Any], last: str = "or") -> str:
    """Names in a sentence."""
    texts = [str(name) for name in names]
    return f" {last} ".join(filter(None, (", ".join(texts[:-1]), texts[-1])))


def narrow(prog: str) -> argparse.HelpFormatter:
    """It is made for each word and prints nothing. Without a width it loads a module that looks up the terminal's."""
    return argparse.HelpFormatter(prog, width=80)


def reader(kind: Callable[[str], Any], choices: Any, verb: str) -> Callable[[str], Any]:
    """A type for argparse, whose sentence is told whole."""

    def read(word: str) -> Any:
        word = word.replace(MARK, "")
        if choices is not None and word not in choices:
            raise ArgumentTypeError(f"{verb} {listed(list(choices))}, and not `{told(word)}`")
        try:
            return kind(word)
        except WrongValue as fault:
            raise ArgumentTypeError(str(fault)) from None
        except ValueError:
            raise ArgumentTypeError(f"`{told(word)}` isn't what it takes") from None

    return read


def taking(name: str, more: Dict[str, Any]) -> Dict[str, Any]:
    """What argparse is told of a word. A place has the name of the usage line, in capitals where no other is given."""
    is_option = name.startswith("-")
    if not is_option:
        more.setdefault("metavar", name.upper())
    if more.get("action") != "store_true":
        more["type"] = reader(more.get("type", str), more.pop("choices", None), "takes" if is_option else "is")
    return more


def marked(words: Sequence[str]) -> List[str]:
    """The words with a mark before those that are no options: numbers, and all behind `--`."""
    end = words.index("--") if "--" in words else len(words)
    return [MARK * bool(NUMBER.match(word)) + word for word in words[:end]] + [MARK + word for word in words[end + 1 :]]


def paths(said: Any, how: Any) -> Iterator[str]:
    """The paths of what a word says, but for standard input; `how` takes one out of a value."""
    for value in said if isinstance(said, list) else [said]:
        if value not in (None, "-"):
            yield str(how(value) if callable(how) else value)


class Words(argparse.ArgumentParser):
    """The words of a tool. `reads` marks a word that names a file to be read, and `writes` one to be written, with the endings
    that it may have; both are looked at before the tool begins. `--help` prints the tool's own text."""

    def __init__(self) -> None:
        super().__init__(usage="", add_help=False, allow_abbrev=False, formatter_class=narrow)
        self.files: List[Tuple[str, Any, Any]] = []
        self.options: List[str] = []
        self.more_files: Callable[[Any], Tuple[List[str], List[Target]]] = lambda _: ([], [])

    def add_argument(self, name: str, **more: Any) -> Any:  # type: ignore[override]
        reads, writes = more.pop("reads", None), more.pop("writes", None)
        action = super().add_argument(name, **taking(name, more))
        self.options += action.option_strings
        self.files.append((action.dest, reads, writes))
        return action

    def add_mutually_exclusive_group(self, **more: Any) -> Any:
        """Words of which one may be said."""
        group = super().add_mutually_exclusive_group(**more)
        add = group.add_argument

        def added(name: str, **its: Any) -> Any:
            self.options.append(name)
            return add(name, **taking(name, its))

        setattr(group, "add_argument", added)
        return group

    def error(self, message: str) -> Any:
        """Says in the tools' words what argparse found; a sentence of a tool stays."""
        if message.startswith(MISSING):
            names = message[len(MISSING) :].split(", ")
            raise WrongWord(f"{listed(names, 'and')} {'are' if names[1:] else 'is'} missing", is_of_number=True)
        of_word = re.fullmatch(r"argument (\S+): (.*)", message, re.DOTALL)
        if of_word:
            name, fault = of_word.groups()
            form, text, is_of_option = next(each for each in FORMS if each[0].fullmatch(fault))
            groups = form.fullmatch(fault)
            raise WrongWord(text.format(name, *(groups.groups() if groups else ())), name if is_of_option else "")
        raise WrongWord(message)

    def parse_args(self, words: Sequence[str]) -> Any:  # type: ignore[override]
        said, others = self.parse_known_intermixed_args(marked(words))
        for other in sorted(others, key=lambda word: not word.startswith("-")):
            self.refuse(other)
        self.check_files(said)
        return said

    def refuse(self, word: str) -> None:
        """Says of a word that is left that it is no option, or one too many."""
        name = word.partition("=")[0]
        if not name.startswith("-"):
            raise WrongWord(f"`{told(word.replace(MARK, ''))}` is one word too many", is_of_number=True)
        from difflib import get_close_matches  # it takes long to load, and a right word needs none

        near = get_close_matches(name, self.options, 1)
        raise WrongWord(f"`{told(name)}` is none of its words{f' (perhaps {near[0]} is meant)' if near else ''}")

    def check_files(self, said: Any) -> None:
        inputs, targets = map(list, self.more_files(said))
        for name, reads, writes in self.files:
            if reads:
                inputs += paths(getattr(said, name), reads)
            if writes is not None:
                targets += [(path, writes) for path in paths(getattr(said, name), None)]
        check_files(inputs, targets)


class FirstWord(Words):
    """The words of a tool whose first one says which others there are. By it, `adding` gives what adds these."""

    def __init__(self, adding: Dict[str, Callable[[Words], None]]) -> None:
        super().__init__()
        self.adding = adding
        self.add_argument("word", choices=adding)

    def parse_args(self, words: Sequence[str]) -> Any:  # type: ignore[override]
        self.adding[super().parse_args(words[:1]).word](self)
        return super().parse_args(words)
