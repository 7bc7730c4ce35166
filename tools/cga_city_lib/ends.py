"""The ends of a call: standard input, output and error. Another process that has them too, as Node with a terminal, may have
set them so that a read or a write that would have to wait fails. The programs can't wait by themselves, and take that for a fault."""
import os


def wait_at_ends() -> None:
    """From here on a read or a write at each end waits; an end that is closed stays closed."""
    for end in (0, 1, 2):
        try:
            os.set_blocking(end, True)
        except OSError:
            pass
