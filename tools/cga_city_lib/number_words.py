"""Numbers in the words of tools: what is said of one that no script can have."""
from .numerals import DIGITS, is_too_long
from .strangers_text import told
from .wrong_word import WrongValue


def check_digits(word: str, *texts: str) -> None:
    """Refuses a word one of whose numbers has more digits than scripts take."""
    if any(map(is_too_long, texts)):
        raise WrongValue(f"`{told(word)}` is out of range: a script's numbers have {DIGITS} digits at most")
