"""The exceptions of the library's errors."""
import os

# The codes of an allocation that failed, of a file, and of a text that is not UTF-8.
MEMORY, FILE, NOT_UTF8 = 1, 0x4601, 0x4703
# What to do, if the library's explanation names C calls.
ADVICE = {
    "K1": "words, wakati, parse and lines take several lines",
    "G3": 'errors="replace" segments it as U+FFFD',
    "G4": "words, wakati, parse and lines take a line of any length",
}


class KumquatsieveError(Exception):
    """An error of the library, which is a ValueError, MemoryError or OSError too."""

    filename = advice = None

    def __init__(self, message, code, position=None, number=0, image=0, line=None):
        # `pickle` makes the exception again from `args`.
        self.args = message, code, position, number, image, line
        self.message, _, self.position, self.number, self.image, self.line = self.args
        self.code = f"{chr(code >> 8)}{code & 255}" if code > 255 else "M1"
        if isinstance(self, OSError):
            self.errno, self.strerror = number, os.strerror(number)

    def __str__(self):
        where = f"line {self.line}: " if self.line else ""
        is_complete = self.position is None or " at byte " in self.message
        at = "" if is_complete else f" at character {self.position}"
        cure = self.explanation.partition("What to do: ")[2].strip()
        advice = self.advice or ADVICE.get(self.code, cure)
        return "; ".join(filter(None, [f"{where}{self.message}{at}", advice]))

    @property
    def explanation(self):
        """What the error means, its usual cause, and what to do."""
        from ._core import explain

        return explain(self.args[1])


# The classes of errors, by the classes of Python's that they are derived from too.
KINDS = {}
OF_FILES = (OSError, FileNotFoundError, PermissionError, IsADirectoryError, NotADirectoryError)
for base in (ValueError, MemoryError, *OF_FILES):
    name = f"Kumquatsieve{base.__name__}"
    KINDS[base] = globals()[name] = type(name, (KumquatsieveError, base), {"__module__": __name__})


def error_of(code, number, position, image, message, line=None):
    """Returns the exception of an error. Python has a class for the number of one of a file."""
    base = {MEMORY: MemoryError, FILE: type(OSError(number, ""))}.get(code, ValueError)
    position = None if position < 0 else position
    return KINDS.get(base, KINDS[OSError])(message, code, position, number, image, line)
