"""Where the script's parts begin, if Python is new enough for them. `./compaan` runs this.

An answer waits for all that is read before it. So what every call needs is kept small: it imports nothing of the standard library that
Python hasn't imported itself when it starts, and the other parts are imported where they are wanted.
"""
import os
import sys

OWN_FAULT = 70


def start() -> "int | str":
    """Gives the status of the call, or why there is none."""
    if sys.version_info < (3, 11):
        return "this script wants Python 3.11 or a later one"
    sys.path.insert(0, os.path.dirname(os.path.dirname(os.path.realpath(__file__))))
    try:
        from front_door.main import main
        from front_door.program import ended_by_default
    except ImportError as error:
        return f"the script's parts can't be read: {error}"
    # Ctrl-C and a closed pipe end this script as they end the program.
    ended_by_default()
    return main(sys.argv[1:])


if __name__ == "__main__":
    STATUS = start()
    if isinstance(STATUS, str):
        if sys.stderr is not None:
            try:
                os.write(2, f"compaan: {STATUS}\n".encode())
            except OSError:
                pass
        STATUS = OWN_FAULT
    # Nothing is left in a buffer, so there is nothing to be done before the end.
    os._exit(STATUS)
