"""What is wrong with a word of a call: the word itself, or what stands behind it."""


class WrongWord(Exception):
    """A word isn't one of the tool's, with the reason. The form of the option, or that of all words, is told with it."""

    def __init__(self, reason: str, option: str = "", is_of_number: bool = False) -> None:
        super().__init__(reason)
        self.option, self.is_of_number = option, is_of_number


class WrongFile(WrongWord):
    """A word names a file that can't be read or written, with what to do."""


class WrongValue(ValueError):
    """What stands behind a word isn't what it takes, with a sentence that says what it takes."""
