"""The command by click: groups of commands, help, version and completion. Each command's module is imported when it is called."""

from __future__ import annotations

import importlib
import os
import textwrap

import click
from click.shell_completion import CompletionItem

from murdjohe.commands import form_run, topics, widths
from murdjohe.commands.form_run import JSON, QUIET, Settings
from murdjohe.core import documents, forms, inputs, program, streams, times
from murdjohe.core.faults import Wrong
from murdjohe.core.forms import FORMS, Form
from murdjohe.core.streams import Output

TYPE_CHECKING = False
if TYPE_CHECKING:
    from murdjohe.answers.envelopes import Held

NAME = "murdjohe"
FILES = "Files and pictures"
ABOUT = "About"
# The workbench's own commands: their module, group, and what they do in a line.
OWN = {
    "capture": ("capture", forms.LAB, "reads any capture; compares a device with the rules"),
    "import": ("import_tables", FILES, "makes a plan of tables of elements, links and sources"),
    "lint": ("lint", forms.PLANNING, "says what to look at in a plan, with lines and remedies"),
    "repair": ("repair", forms.PLANNING, "finds what to change so that nothing loops or oscillates"),
    "place": ("place", forms.PLANNING, "finds the cheapest sites for clocks and filters"),
    "diff": ("diff", forms.PLANNING, "says what differs between two plans"),
    "orders": ("orders", forms.PLANNING, "prints what to set at each element"),
    "desk": ("desk", forms.PLANNING, "serves a page on which a plan is changed by pointing"),
    "rehearse": ("rehearse", forms.RUNNING, "shows works as they will go: events, changes, what is rejected"),
    "why": ("why", forms.RUNNING, "says why an element takes what it takes, and what led to it"),
    "failures": ("failures", forms.RUNNING, "writes the failures of a plan, and pairs of them, as cases"),
    "survey": ("survey", forms.RUNNING, "has cases worked, here or on a cluster: the worst first"),
    "export": ("export", FILES, "writes the tables of a plan, with its priorities"),
    "apply": ("apply", FILES, "takes the priorities of one plan into another, spelling kept"),
    "draw": ("draw", FILES, "draws a plan, with the levels and selections of a report"),
    "timeline": ("timeline", FILES, "draws what changes in a report, over time"),
    "report": ("report", FILES, "writes a page that shows a run, for any browser"),
    "explain": ("explain", FILES, "says in a sentence what the program's own answer means"),
    "help": ("help", ABOUT, "says more of a command, or of plan, tables, events, levels .."),
    "completion": ("completion", ABOUT, "prints the completion for bash, zsh or fish"),
}
GROUPED = "protect"  # the form that takes a list of groups as an option
GROUPED_COMMANDS = ("capture",)  # commands with commands below them
BY_LINES = ("capture watch",)  # and those that print a line of JSON for each thing that comes
# The groups of commands, by the word that `help` takes for each.
GROUPS = {
    "plans": forms.PLANNING,
    "network": forms.RUNNING,
    "priority": forms.PRIORITY,
    "lab": forms.LAB,
    "files": FILES,
    "trying": forms.TRYING,
    "about": ABOUT,
}
EVERYTHING = "all"  # what `help` takes for all groups
FIRST = """\
A planner for SyncE networks: is a timing loop possible, may elements oscillate?
Verdicts are those of a proved program; sentences come on standard error.
"""
LAST = f"""\
{NAME} help GROUP     the commands of a group, a line each; `all` for all
{NAME} help tables    tables that become a plan; also: plan, events, statuses
{NAME} check --help   words, statuses and an example of a command
"""


def shown_help(context: click.Context, _: click.Parameter, is_asked: bool) -> None:
    """Prints the help of a command and ends it."""
    if is_asked and not context.resilient_parsing:
        context.obj.put((widths.fitted(context.get_help()).rstrip("\n") + "\n").encode())
        context.exit()


def shown_version(context: click.Context, _: click.Parameter, is_asked: bool) -> None:
    """Prints the version and ends the command."""
    if is_asked and not context.resilient_parsing:
        from murdjohe.commands import version

        context.obj.put(version.text().encode("utf-8", "surrogateescape"))
        context.exit()


def help_option() -> click.Option:
    return click.Option(
        ["-h", "--help"], is_flag=True, is_eager=True, expose_value=False, callback=shown_help, help="this text"
    )


def made_quiet(context: click.Context, _: click.Parameter, is_asked: bool) -> None:
    """Leaves out the sentences of a command behind which that is asked."""
    if is_asked and not context.resilient_parsing:
        context.find_root().params["quiet"] = True


def quiet_behind() -> click.Option:
    """The option for quiet behind a command, which help shows once for all."""
    return click.Option(
        ["-q", "--quiet"], is_flag=True, is_eager=True, expose_value=False, hidden=True, callback=made_quiet
    )


def with_help(command: click.Command) -> click.Command:
    """The command with our option for help, and for quiet behind it, and each below it too."""
    command.add_help_option = False
    if not any("--help" in param.opts for param in command.params):
        command.params.append(help_option())
    if not any("--quiet" in param.opts or "-q" in param.opts for param in command.params):
        command.params.append(quiet_behind())
    for below in command.commands.values() if isinstance(command, click.Group) else ():
        with_help(below)
    return command


def quiet_option() -> click.Option:
    return click.Option(["-q", "--quiet"], is_flag=True, help="without sentences on standard error")


def json_option() -> click.Option:
    return click.Option(["--json"], is_flag=True, help="JSON in place of the program's bytes")


def names_in(plan: str, incomplete: str) -> list[CompletionItem]:
    """The elements of a plan whose names begin so."""
    from murdjohe.core.inputs import File
    from murdjohe.plan.plan_lines import PlanLines

    try:
        names = PlanLines(documents.read(File(forms.PLAN, plan, plan))).names("element")
    except OSError:
        return []
    return [CompletionItem(name) for name in names if name.startswith(incomplete)]


class FormWords(click.Argument):
    """All words of a form, as they are; completed by what each of them is."""

    def __init__(self, form: Form) -> None:
        super().__init__(["words"], nargs=-1, type=click.UNPROCESSED)
        self.form = form

    def shell_complete(self, ctx: click.Context, incomplete: str) -> list[CompletionItem]:
        given = list(ctx.params.get("words") or ())
        if len(given) >= len(self.form.words):
            return []
        word = self.form.words[len(given)]
        if word.is_file:
            return [CompletionItem(incomplete, type="file")]
        if word.kind == forms.OPTION:
            return [CompletionItem(option) for option in ("I", "II") if option.startswith(incomplete)]
        return names_in(given[0], incomplete) if word.kind == forms.ELEMENT else []


def has_times(form: Form) -> bool:
    """Whether a word of a form is a time."""
    return any(word.kind == forms.TIME for word in form.words)


def form_options(form: Form) -> list[click.Option]:
    """The options of a form beside those of all commands."""
    output = click.Option(["-o", "--output"], type=click.Path(), help="writes to this file, whole or not at all")
    force = click.Option(["--force"], is_flag=True, help="overwrites an existing file")
    start = click.Option(["--start"], metavar="TIME", help="the time of day at which the run begins")
    its = click.Option(["--groups"], type=click.Path(), help="also no group of this list cuts elements off")
    return [output, force, *([start] if has_times(form) else []), *([its] if form.name == GROUPED else [])]


def time_of_day(word: str | None) -> int | None:
    """The milliseconds of a time of day that is given as an option. Raises Wrong."""
    if word is None:
        return None
    time = times.milliseconds(word)
    if time is None or time >= times.DAY:
        raise Wrong(f"--start: {word!r} is no time of day, as 02:00 or 23:00:00")
    return time


class FormCommand(click.Command):
    """A form of the program as a command."""

    def __init__(self, form: Form) -> None:
        super().__init__(
            form.name,
            {"ignore_unknown_options": True},
            callback=self.called,
            params=[FormWords(form), *form_options(form), quiet_option(), json_option(), help_option()],
            help=form.does,
            short_help=form.does,
            add_help_option=False,
        )
        self.form = form

    def called(
        self,
        words: tuple[str, ...],
        quiet: bool,
        json: bool,
        output: str | None,
        force: bool,
        start: str | None = None,
        groups: str | None = None,
    ) -> int:
        from murdjohe.core import files

        context = click.get_current_context()
        asked = context.find_root().params
        given = [text for word, text in zip(self.form.words, words) if word.is_file]
        files.free([output] if output else [], force, [*given, groups])
        path = None if output == inputs.STDIN else output
        settings = Settings(quiet or asked["quiet"], json or asked["json"], path, time_of_day(start))
        if groups is not None and len(words) == len(self.form.words):
            from murdjohe.commands import protect_groups

            return protect_groups.run(words[0], groups, settings, context.obj)
        return form_run.run(self.form, list(words), settings, context.obj)

    def collect_usage_pieces(self, ctx: click.Context) -> list[str]:
        more = " [--start TIME]" if has_times(self.form) else " [--groups FILE]" if self.form.name == GROUPED else ""
        return self.form.usage.split()[1:] + [f"[--quiet] [--json] [-o FILE [--force]]{more}"]

    def format_options(self, ctx: click.Context, formatter: click.HelpFormatter) -> None:
        formatter.write_paragraph()
        formatter.write(topics.of_form(self.form))


def in_group(group: str) -> list[tuple[str, str]]:
    """The commands of a group, and what each does in a line."""
    lines = [(form.group, form.name, form.does) for form in FORMS.values()]
    lines += [(its, name, does) for name, (_, its, does) in OWN.items()]
    return [(name, does) for its, name, does in lines if its == group]


def group_help(word: str) -> str:
    """The commands of a group, or of all, a line each."""
    groups = list(GROUPS.values()) if word == EVERYTHING else [GROUPS[word]]
    parts = [[f"{group}:", *(f"  {name:<12}{does}" for name, does in in_group(group))] for group in groups]
    return "\n\n".join("\n".join(part) for part in parts)


class Commands(click.Group):
    """All commands, in groups, each made when it is asked for."""

    def list_commands(self, ctx: click.Context) -> list[str]:
        return [*FORMS, *OWN]

    def get_command(self, ctx: click.Context, cmd_name: str) -> click.Command | None:
        if cmd_name in FORMS:
            return FormCommand(FORMS[cmd_name])
        if cmd_name not in OWN:
            return None
        command = importlib.import_module(f"murdjohe.commands.{OWN[cmd_name][0]}").COMMAND
        if not isinstance(command, click.Command):
            raise TypeError(f"{cmd_name} is no command")
        return with_help(command)

    def format_options(self, ctx: click.Context, formatter: click.HelpFormatter) -> None:
        formatter.write("\n")
        for word, group in GROUPS.items():
            names = textwrap.wrap(" ".join(name for name, _ in in_group(group)), 66, break_on_hyphens=False)
            for place, line in enumerate(names):
                formatter.write(f"  {'' if place else word:<10}{line}\n")
        formatter.write(f"\n{LAST}")
        click.Command.format_options(self, ctx, formatter)

    def format_help_text(self, ctx: click.Context, formatter: click.HelpFormatter) -> None:
        formatter.write_paragraph()
        formatter.write(FIRST)


def command() -> Commands:
    """The whole command."""
    version = click.Option(
        ["-V", "--version"],
        is_flag=True,
        is_eager=True,
        expose_value=False,
        callback=shown_version,
        help="which workbench and program",
    )
    return Commands(
        NAME,
        params=[quiet_option(), json_option(), version, help_option()],
        callback=lambda quiet, json: None,
        add_help_option=False,
        context_settings={"max_content_width": 110},
    )


def no_command(words: list[str], name: str | None) -> str:
    """Which word is no command, or no option."""
    option = next((word for word in words if word.startswith("-") and word not in QUIET + JSON), None)
    if option is not None:
        return f'"{option}" is no option before a command'
    if name is None:
        return "no command is given"
    return f'unknown command "{name}"{documents.hint(name, [*FORMS, *OWN, "--version", "--help"], 0.6)}'


def passed_on(words: list[str], name: str | None, output: Output) -> int:
    """Answers words that begin with no command: by the program, which may know a form that the workbench doesn't."""
    answer, printed = program.run([word for word in words if word not in QUIET + JSON]), None
    if answer.status == program.USAGE:
        said = f"{no_command(words, name)}; `{NAME} --help` lists them"
        if not any(word in QUIET for word in words):
            streams.tell(said)
        if any(word in JSON for word in words):
            from murdjohe.answers import envelopes

            printed = envelopes.refused(name, answer.status, [said])
    output.put(answer.text if printed is None else printed)
    return answer.status


def name_of(words: list[str], first: str) -> str:
    """The name of a command, with the one below it where there is one."""
    behind = words[words.index(first) + 1 :]
    return f"{first} {behind[0]}" if first in GROUPED_COMMANDS and behind and behind[0][:1] != "-" else first


def held_for(words: list[str], first: str | None, output: Output) -> Held | None:
    """What holds the output of a command of the workbench's own that prints JSON; None where it prints something else, or line by
    line."""
    if first not in OWN or not any(word in JSON for word in words) or name_of(words, first) in BY_LINES:
        return None
    from murdjohe.answers import envelopes

    return envelopes.Held(output)


def run(words: list[str], output: Output) -> int:
    """Answers any words, and gives the exit status."""
    is_completing = f"_{NAME.upper()}_COMPLETE" in os.environ
    first = next((word for word in words if not word.startswith("-")), None)
    is_bare = first is None and bool(words) and all(word in QUIET + JSON for word in words)
    if not is_completing and (is_bare or first not in (None, *FORMS, *OWN)):
        return passed_on(words, first, output)
    arguments = words if words or is_completing else ["--help"]
    held = held_for(words, first, output) if not is_completing else None
    try:
        status = command().main(arguments, NAME, standalone_mode=False, obj=held or output)
        if held and first:
            held.let_go(name_of(words, first), status if isinstance(status, int) else program.DONE)
    except click.exceptions.Abort as abort:
        told = abort.__context__
        raise told if isinstance(told, KeyboardInterrupt) else KeyboardInterrupt() from None
    except click.ClickException as wrong:
        of = f"{NAME} {first}" if first else NAME
        raise Wrong(f"{wrong.format_message().rstrip('.')}; see `{of} --help`") from None
    except SystemExit as end:
        return end.code if isinstance(end.code, int) else program.MISTAKE
    return status if isinstance(status, int) else program.DONE
