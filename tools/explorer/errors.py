"""How a command of `explore` ends."""

DONE = 0
FAILURE = 1
WRONG_WORDS = 2
CHECK_FAILED = 3
CHECK_BROKEN = 4
INTERRUPTED = 130
# How a command ends that names what is wrong.
FAILURES = (FAILURE, WRONG_WORDS, CHECK_FAILED, CHECK_BROKEN)


class ExploreError(Exception):
    """What is wrong, told in one line, and the exit status that goes with it."""

    def __init__(self, text: str, status: int = FAILURE) -> None:
        super().__init__(text)
        self.status = status


def reason_of(error: OSError) -> str:
    """The plain words of an error of the operating system."""
    return error.strerror or str(error)
