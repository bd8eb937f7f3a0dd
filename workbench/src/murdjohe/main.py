"""Where the command begins. A form with its plain words is answered at once; whatever else there is goes through `cli`."""

from __future__ import annotations

import _signal  # type: ignore[import]
import os
import sys

from murdjohe.commands import form_run
from murdjohe.commands.form_run import JSON, QUIET, Settings
from murdjohe.core import forms, program, streams
from murdjohe.core.faults import Wrong
from murdjohe.core.row_columns import RowFault
from murdjohe.core.streams import Output

ENDING = (1, 15)  # SIGHUP and SIGTERM (the module `signal` takes long to import)
# The libraries that commands import, by the name of a module, with Debian's name of the package behind python3-.
LIBRARIES = {name: name for name in ("click", "rich", "matplotlib", "dpkt", "networkx", "jinja2", "numpy", "scipy")}
LIBRARIES |= {"distributed": "distributed", "elftools": "pyelftools", "aiohttp": "aiohttp"}


def plain(words: list[str]) -> tuple[forms.Form, list[str], Settings] | None:
    """The form, its words and settings, where no other option stands among them; else None."""
    if not words or words[0] not in forms.FORMS:
        return None
    form, rest = forms.FORMS[words[0]], words[1:]
    settings = Settings(any(word in QUIET for word in rest), any(word in JSON for word in rest))
    given = [word for word in rest if word not in QUIET + JSON]
    has_option = any(word.startswith("-") and word != "-" for word in given)
    return None if has_option else (form, given, settings)


def answered(words: list[str], output: Output) -> int:
    """Answers the words, and gives the exit status."""
    if found := plain(words):
        form, given, settings = found
        return form_run.run(form, given, settings, output)
    from murdjohe.commands import cli

    return cli.run(words, output)


def guarded(words: list[str], output: Output) -> int:
    """Answers the words; whatever goes wrong is told in one line, with a status of its own, and as JSON where that is asked."""
    try:
        return answered(words, output)
    except Wrong as wrong:
        return refused(words, output, wrong.status, *wrong.lines)
    except program.NoAnswer as none:
        return refused(words, output, program.MISTAKE, str(none))
    except RowFault as fault:
        said = f"{program.NAME} gave an answer that isn't known here: {fault}; see `murdjohe help core`"
        return refused(words, output, program.MISTAKE, said)
    except (program.Absent, program.Ended) as absent:
        return refused(words, output, program.UNAVAILABLE, str(absent))
    except streams.Lost as lost:
        if not lost.is_gone:
            streams.tell(f"standard output: {lost}")
        return lost.status
    except Told as told:
        return 128 + told.number
    except KeyboardInterrupt:
        return program.INTERRUPTED
    except MemoryError:
        streams.tell("out of memory; free some, and run again")
        return program.NO_MEMORY
    except Exception as mistake:
        if (status := ended_by(mistake)) is not None:
            return status
        if isinstance(mistake, ModuleNotFoundError) and (lacking := missing(mistake.name or "")):
            return refused(words, output, program.UNAVAILABLE, lacking)
        from murdjohe.core import crash

        streams.tell(crash.told(mistake))
        return program.MISTAKE


def missing(name: str) -> str | None:
    """What is told where a library isn't installed, with all that are missing; None of what is no such library."""
    if name.partition(".")[0] not in LIBRARIES:
        return None
    from importlib.util import find_spec

    packages = [f"python3-{package}" for library, package in LIBRARIES.items() if find_spec(library) is None]
    verb = "is" if len(packages) == 1 else "are"
    return f"{', '.join(packages)} {verb} not installed: sudo apt-get install {' '.join(packages)}"


def refused(words: list[str], output: Output, status: int, *said: str) -> int:
    """Tells why nothing is answered, and prints it too where JSON is asked and nothing was printed yet; the status."""
    streams.tell(*said)
    if any(word in JSON for word in words) and not output.is_begun:
        from murdjohe.answers import envelopes

        name = next((word for word in words if not word.startswith("-")), None)
        try:
            output.put(envelopes.refused(name, status, said))
        except streams.Lost:  # (the status says already that there is no answer)
            pass
    return status


def ended_by(fault: BaseException | None) -> int | None:
    """The status of the signal behind a fault, where a library made another fault of it, as an import does; None where none is."""
    while fault is not None:
        if isinstance(fault, Told):
            return 128 + fault.number
        if isinstance(fault, KeyboardInterrupt):
            return program.INTERRUPTED
        fault = fault.__cause__ or fault.__context__
    return None


class Told(KeyboardInterrupt):
    """The process was told to end, by a signal other than that of Ctrl-C; whatever that cleans up is cleaned up too."""

    def __init__(self, number: int) -> None:
        super().__init__()
        self.number = number


def told(number: int, _: object) -> None:
    """Ends the command as Ctrl-C does."""
    raise Told(number)


def heed() -> None:
    """Has the signals that tell a process to end do so as Ctrl-C does, but for those that are ignored, as by nohup."""
    for number in ENDING:
        if _signal.getsignal(number) == _signal.SIG_DFL:
            _signal.signal(number, told)


def main() -> int:
    """The command: the exit status of the words that the process was given."""
    heed()
    output = Output(streams.filled())
    return guarded(sys.argv[1:], output)


def start() -> None:
    """Runs the command and ends the process, without what Python would write at its end."""
    status = main()
    try:
        sys.stderr.flush()
        sys.stdout.flush()
    except (OSError, ValueError, AttributeError):
        pass
    os._exit(status)
