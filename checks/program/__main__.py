"""Runs the built program and compares its exit status, standard output and standard error with what they must be.

Usage: checks/program PROGRAM ..
Prints a line for each difference and ends with status 1 if there is one. Prints nothing where all is well."""
import os
import pathlib
import sys

sys.path.append(str(pathlib.Path(__file__).resolve().parent.parent))

from area_cases import areas  # noqa: E402
from explore_cases import questions  # noqa: E402
from file_cases import written_files  # noqa: E402
from line_cases import bad_lines  # noqa: E402
from picture_cases import pictures  # noqa: E402
from reason_cases import reasons  # noqa: E402
from run_cases import faults, lines_at_the_limits, sessions, would_block  # noqa: E402
from save_cases import saved_faults, saved_files, saved_on_terminals, saved_to_listeners, saved_to_long_names  # noqa: E402
from secret_cases import guarded, refused_files  # noqa: E402
from serve_cases import (  # noqa: E402
    asking,
    pins_of_ended_sessions,
    served_faults,
    served_on_terminals,
    served_questions,
    served_sessions,
    tended,
    worked,
)
from settings_cases import kept_by_default, options_without_values, settings_shown, sizes_by_names  # noqa: E402
from terminal_cases import at_a_terminal  # noqa: E402
from wide_cases import wide_heaps  # noqa: E402


def differences(program):
    """Yields a line for each run that went otherwise than it must."""
    parts = ("status", "standard output", "standard error", "first of the clients or the dump", "second", "third", "fourth")
    saves = (saved_files, saved_to_long_names, saved_faults, saved_to_listeners, saved_on_terminals)
    serves = (served_sessions, served_on_terminals, pins_of_ended_sessions, worked, tended, served_questions, asking, served_faults)
    serves += (refused_files, guarded)
    explores = (questions, written_files, at_a_terminal, pictures, wide_heaps, areas)
    for cases in (sessions, *explores, settings_shown, sizes_by_names, kept_by_default, options_without_values, lines_at_the_limits, faults, would_block, bad_lines, reasons, *saves, *serves):
        for name, happened, wanted in cases(program):
            if not len(happened) == len(wanted) <= len(parts):
                yield f"{program}, {name}: {len(happened)} facts, and must be {len(wanted)}, at most {len(parts)}"
            for what, one, other in zip(parts, happened, wanted):
                if one != other:
                    yield f"{program}, {name}: {what} is {one!r:.300}, and must be {other!r:.300}"


def main(programs):
    """Returns the exit status: 0 where every run of every program went as it must."""
    if not programs:
        print("usage: checks/program PROGRAM ..")
        return 2
    found = [line for program in programs for line in differences(os.path.abspath(program))]
    print("\n".join(found), end="\n" if found else "")
    return 1 if found else 0


if __name__ == "__main__":
    sys.exit(main(sys.argv[1:]))
