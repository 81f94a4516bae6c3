"""The one handler round whatever the script does: each failure has a line and a status, and none goes further."""
from .base import TYPE_CHECKING, Status, Stop, printable, tell
from .program import Signalled

if TYPE_CHECKING:
    from collections.abc import Callable


def ended(act: "Callable[[], int]") -> int:
    """The status of what is done, or that of its failure, which is said on standard error."""
    try:
        return act()
    except Stop as stop:
        tell(f"compaan: {printable(stop.text)}")
        return stop.status
    except Signalled as it:
        it.end()
        return 128 + it.number
    except MemoryError:
        tell("compaan: memory is wanting")
        return Status.SYSTEM
    except OSError as error:
        tell(f"compaan: {printable(str(error.filename or 'the system'))}: {error.strerror}")
        return Status.SYSTEM
    except Exception as error:
        import os
        import traceback

        last = traceback.extract_tb(error.__traceback__)[-1]
        where = f"{os.path.basename(last.filename)}:{last.lineno}"
        tell(f"compaan: a fault of this script: {type(error).__name__}: {printable(str(error))} ({where})")
        return Status.OWN_FAULT
