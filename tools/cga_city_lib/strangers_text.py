"""Text of strangers, such as a name in a file or a wrong word, made fit to be shown."""


def shown(text: str) -> str:
    """The text with the code of each letter that isn't printable, as <1B> or <U+202E>, but for a tab; a byte of no letter has
    its own."""
    return "".join(letter if letter.isprintable() or letter == "\t" else code_of(ord(letter)) for letter in text)


def code_of(number: int) -> str:
    """Python keeps the byte FF of a word that isn't UTF-8 as the number DCFF."""
    number -= 0xDC00 if 0xDC80 <= number <= 0xDCFF else 0
    return f"<{number:02X}>" if number < 0x100 else f"<U+{number:04X}>"


def told(text: object) -> str:
    """The text in a sentence: what isn't printable is written as its code, and a long text is cut."""
    text = str(text)
    return shown(text[:60]).replace("\t", "<09>") + ".." * (len(text) > 60)


def cell(text: str) -> str:
    """The text in a table: what a spreadsheet would take for a formula stays text."""
    return "'" + text if text[:1] in ("=", "+", "-", "@", "\t", "\r") else text
