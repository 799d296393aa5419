"""The command line: what each command takes, and which function does it."""
from __future__ import annotations

import argparse
import os
import re
import signal
import sqlite3
import sys
import textwrap
import time
from typing import TYPE_CHECKING, Any, Callable, Iterable, NoReturn, Sequence

from . import files, questions
from .shared import Failed
from .state import State, open_state
from .weights import TABLE, Weights

if TYPE_CHECKING:
    from .status import Root

PROGRAM = "ocfl-scrub-reports"
LIMITS = [("--age", "26,50", "hours since the last night began"),
          ("--findings", "1,-", "open findings that are not known"),
          ("--damaged", "1,1", "damaged or unreadable files among them (weight 1)"),
          ("--lost", "1,1", "objects that are gone or no longer declared, and not back"),
          ("--gone", "1,-", "these, files that are gone and not back, and expected objects that "
                            "are missing"),
          ("--cycle-age", "-,-", "days since the last whole cycle ended")]
KNOWN = ("a file of known findings and losses: lines of reports or of lists of what is gone, or "
         "their first two columns, where a path with / after it stands for all below")
Given = argparse.Namespace
Does = Callable[[Given], "int | None"]


class Parser(argparse.ArgumentParser):
    """A parser that takes no shortened options, and ends with the status of its command."""
    fault_status = 2

    def error(self, message: str) -> NoReturn:
        self.print_usage(sys.stderr)
        self.exit(self.fault_status, "%s: %s\n" % (self.prog, message))


# What options and words stand for

def limits(text: str) -> tuple[int | None, int | None]:
    if not re.fullmatch("(-|[0-9]+),(-|[0-9]+)", text):
        raise argparse.ArgumentTypeError("two numbers are needed, or - for never: " + repr(text))
    warning, alarm = (None if it == "-" else int(it) for it in text.split(","))
    return warning, alarm


def cycle(text: str) -> int:
    if not re.fullmatch("[1-9][0-9]*", text):
        raise argparse.ArgumentTypeError("a number from 1 on is needed: " + repr(text))
    return int(text)


def report_at(path: str) -> str:
    """A report by the name that it had before it was compressed, or by its own."""
    packed = path + ".gz"
    return packed if not os.path.lexists(path) and os.path.lexists(packed) else path


def moment(text: str) -> int:
    from .status import seconds_of
    try:
        return seconds_of(text)
    except ValueError as error:
        raise argparse.ArgumentTypeError("not a time: " + repr(text)) from error


# What each command does. Modules are loaded before root becomes another user, who may not read
# them, and no others than a command needs.

def named(*paths: str | None) -> None:
    """Continues with the rights of the user whose these files are."""
    files.drop_to_owners_of(filter(None, paths))


def state_of(given: Given) -> State:
    named(given.state)
    return open_state(given.state)


def do_findings(given: Given) -> None:
    named(*given.report, given.new, given.known)
    questions.show_findings(given.report, given.new, given.known,
                            Weights(given.codes) if given.by_weight else None)


def of_reports(show: Callable[[list[str]], None]) -> Does:
    def do(given: Given) -> None:
        named(*given.report)
        show(given.report)
    return do


def do_changed(given: Given) -> None:
    named(given.older, given.newer)
    questions.show_changed(given.older, given.newer)


def do_unverified(given: Given) -> None:
    from . import database
    database.show_unverified(given.date, state_of(given))


def do_database(given: Given) -> None:
    from . import database
    database.make(state_of(given), given.database)


def do_premis(given: Given) -> None:
    from . import premis
    premis.show(state_of(given), given.cycle, given.each, given.ids)


def do_statement(given: Given) -> None:
    from . import statement
    statement.write(state_of(given), given.cycle, given.seal, given.known)


def do_finish(given: Given) -> int:
    from . import finish
    return finish.finish(state_of(given), given.seal, given.known, given.keep)


def do_verify(given: Given) -> int:
    from . import verify
    named(given.statement, given.report)
    return verify.show(given.statement, given.report)


def do_cycle(given: Given) -> None:
    from . import cycle_page
    cycle_page.show(state_of(given), given.cycle, Weights(given.codes))


def do_page(given: Given) -> None:
    from . import page
    roots = roots_of(given)
    if len(roots) == 1 and roots[0].error:
        raise Failed(roots[0].error)
    page.show(roots, files.time_text(present(given)))


def present(given: Given) -> int:
    return int(time.time()) if given.now is None else int(given.now)


def folders_of(given: Given) -> list[str]:
    """The folders of state that are given, and those that a file lists."""
    named(*given.state, given.states)
    listed = [files.text_of(line) for line in (files.lines(given.states) if given.states else ())
              if line and not line.startswith(b"#")]
    if not given.state and not listed:
        given.parser.error("a folder of state is needed: STATE or --states FILE")
    return [*given.state, *listed]


def roots_of(given: Given) -> list[Root]:
    """How the nights of each folder stand. One of which nobody can say it keeps no other back."""
    from . import status
    judged = {it: getattr(given, it) for it in [name[2:].replace("-", "_") for name, *_ in LIMITS]}
    weights, now, made = Weights(given.codes), present(given), []
    for folder in folders_of(given):
        try:
            named(folder)
            state = open_state(folder)
            standing = status.standing_of(state, given.known, weights, judged, now)
            made.append(status.Root(folder, state.bound_to("root") or folder, state, standing))
        except (Failed, OSError, ValueError) as error:
            made.append(status.Root(folder, folder, error=str(error)))
    return made


def do_status(given: Given) -> int:
    from . import status
    try:
        roots = roots_of(given)
    except (Failed, OSError, ValueError) as error:
        roots = [status.Root("", "", error=str(error))]
    if len(roots) > 1:
        print(status.summary(roots))
    for root in roots:
        figures = root.standing.figures() if root.standing and len(roots) == 1 else ""
        print(root.line() + figures)
        if given.list and root.standing:
            files.pour(root.standing.found.listed)
    if given.prometheus and (len(roots) > 1 or roots[0].standing):
        status.put_metrics(status.metrics_text(roots), given.prometheus)
    return status.worst_of(roots)


def do_recheck(given: Given) -> int:
    from . import recheck
    return recheck.show(state_of(given), given.known)


def do_repair(given: Given) -> int:
    from . import repair
    return repair.show(state_of(given), given.copy, given.known)


def do_expected(given: Given) -> int:
    from . import expected
    named(given.ids)
    if given.ids is None:
        return expected.show_reported(state_of(given))
    return expected.show(state_of(given), given.ids)


def do_missing(given: Given) -> int:
    from . import expected
    named(given.list, given.report)
    return expected.show_missing(given.list, given.report)


def do_tell(given: Given) -> int:
    from . import tell
    return tell.send(tell.Night(given.name, folders_of(given), os.environ))


# What each command takes

def argument(*names: str, **given: Any) -> Callable[[Parser], object]:
    return lambda parser: parser.add_argument(*names, **given)


REPORTS = argument("report", metavar="REPORT", nargs="+", type=report_at,
                   help="plain, or compressed by gzip, with or without .gz in its name")
STATE = argument("state", metavar="STATE", help="the folder of state of the nights")
# Of commands that take several.
STATES = [argument("--states", metavar="FILE",
                   help="the folders of state that FILE has, a path on each line; a line that "
                        "begins with # is a remark"),
          argument("state", metavar="STATE", nargs="*",
                   help="a folder of state of the nights; of several, something is said of each")]
CYCLE = argument("cycle", metavar="CYCLE", type=cycle)
WITHOUT_KNOWN = argument("--known", metavar="FILE", help="without those that FILE names: " + KNOWN)
CODES = argument("--codes", metavar="FILE", default=TABLE,
                 help="a table of codes and their weights in the place of " + TABLE)
# The options of what makes statements.
SEALING = [argument("--seal", metavar="COMMAND",
                    help="the shell runs COMMAND with the statement's name as $1, in a folder that "
                         "holds it alone; what it leaves there is kept beside it"),
           argument("--known", metavar="FILE",
                    help="losses that FILE names are listed apart: " + KNOWN)]
# The options that say what is grave, what is known, and what time it is.
JUDGING = [*(argument(name, metavar="W,C", type=limits, default=limits(default),
                      help="%s (%s)" % (more, default)) for name, default, more in LIMITS),
           argument("--known", metavar="FILE", help=KNOWN), CODES,
           argument("--now", metavar="TIME", type=moment, help="take TIME for the present")]
# The name of each command, its function, what it does, an example, what it takes, and more on it.
COMMANDS: list[tuple[str, Does, str, str, Iterable[Callable[[Parser], object]], str]] = [
    ("findings", do_findings, "shows the findings of reports",
     "--by-weight --new ~/audit/reports/cycle-000001 ~/audit/report",
     [argument("--new", metavar="OLDER", type=report_at,
               help="only those that the report OLDER lacks"), WITHOUT_KNOWN,
      argument("--by-weight", action="store_true", help="the most serious first"), CODES, REPORTS],
     "These are all lines but `ok` and the notes `S07` and `S09`."),
    ("totals", of_reports(questions.show_totals), "counts the lines of each code in reports",
     "~/audit/reports/cycle-000001", [REPORTS], ""),
    ("bytes", of_reports(questions.show_bytes),
     "sums the files, and their bytes, that reports call right", "~/audit/reports/cycle-000001",
     [REPORTS], ""),
    ("json", of_reports(questions.show_json), "writes each line of reports as a JSON object",
     "~/audit/reports/cycle-000001", [REPORTS], ""),
    ("changed", do_changed, "shows what differs between two reports",
     "~/audit/reports/cycle-000001 ~/audit/reports/cycle-000002",
     [argument("older", metavar="OLDER", type=report_at),
      argument("newer", metavar="NEWER", type=report_at)],
     "After `-` come lines that only OLDER has, after `+` those that only NEWER has, by path."),
    ("unverified", do_unverified, "shows the content files that no night found right since a date",
     "2025-03-01 ~/audit",
     [argument("date", metavar="DATE", help="like 2025-03-01 or 2025-03-01T22:00:00Z"), STATE],
     "For each: when it was found right last, or `never`; its path; code and cycle of its last "
     "line."),
    ("database", do_database, "puts all reports of a folder of state into an SQLite database",
     "~/audit audit.db",
     [STATE, argument("database", metavar="DATABASE", help="a file that is not there yet")],
     "The table `line` has the lines, `run` the runs of the log, and the view `dated` lines with "
     "the time at which their run began."),
    ("premis", do_premis, "writes the fixity events of a closed cycle as PREMIS 3 XML",
     "--each object --ids ~/audit 1",
     [argument("--each", choices=["cycle", "finding", "object"], default="cycle",
               help="an event for the cycle, or for each finding or object; what is gone has "
                    "events too"),
      argument("--ids", action="store_true",
               help="name objects by the ids in their inventories, which are read"), STATE, CYCLE],
     "Of a report that is not whole it writes those of findings alone."),
    ("statement", do_statement, "writes the statement of a closed cycle beside its report",
     "--seal 'minisign -S -s ~/key -m \"$1\" > /dev/null' ~/audit 1", [*SEALING, STATE, CYCLE],
     "One that is there stays as it is."),
    ("finish", do_finish, "states, seals and compresses what nights closed", "--keep 12 ~/audit",
     [*SEALING, argument("--keep", metavar="N", type=cycle,
                         help="remove the reports of all but the last N closed cycles, once they "
                              "have a statement; those that are not compressed stay"), STATE],
     "Each closed cycle gets its statement, if it lacks it. The reports before the last two whole "
     "ones are compressed. Ends with 75 if a night is under way."),
    ("verify", do_verify, "compares a statement with its report and with what lies beside it",
     "~/audit/reports/statement-000001",
     [argument("statement", metavar="STATEMENT"),
      argument("report", metavar="REPORT", nargs="?", type=report_at,
               help="the one that the statement names, unless it is given")],
     "Ends with 0 if what can be checked holds, with 1 if a line does not hold or is unknown, and "
     "with 4 if some could not be checked. It names the lines of which only the JSON says the "
     "same."),
    ("status", do_status, "says in one line how the nights are going",
     "--known ~/known --list ~/audit",
     [*JUDGING, argument("--list", action="store_true",
                         help="list the open findings that are not known below the line, the "
                              "most serious first, and then what is gone"),
      argument("--prometheus", metavar="FILE",
               help="write the figures for the textfile collector of node_exporter"), *STATES],
     "Ends with 0 to 3 for OK, WARNING, CRITICAL and UNKNOWN, as plugins of monitors do; of "
     "several folders with the worst. W,C is a warning from W on and an alarm from C on, - is "
     "never."),
    ("page", do_page, "writes a page that shows how the nights are going", "~/audit > index.html",
     [*JUDGING, *STATES], "It is one file of HTML without scripts, for a browser or a printer."),
    ("cycle", do_cycle, "writes a page about a closed cycle, to be filed or printed",
     "~/audit 1 > cycle-1.html", [CODES, STATE, CYCLE],
     "It is one file of HTML without scripts: what was read, found, gone, back and not looked at, "
     "and the cycle's statement, which is needed. Objects are named by the ids in their "
     "inventories, which are read."),
    ("recheck", do_recheck,
     "looks again at the places of open findings, and says which are repaired", "~/audit",
     [WITHOUT_KNOWN, STATE],
     "What is gone comes after `gone` or `back`. Ends with 1 if a finding is still open, a new one "
     "is there or something is still gone, and with 3 if a place was not looked at. The next cycle "
     "says the same in its report."),
    ("repair", do_repair, "shows what would repair open findings, and copies nothing",
     "--copy /mnt/copy ~/audit",
     [argument("--copy", metavar="DIR",
               help="a copy of the storage root, whose files at the same places are looked at"),
      WITHOUT_KNOWN, STATE],
     "For each damaged file, inventory and sidecar the digest and the size that were expected, "
     "which files have them, and the command that copies one, for bash; and for each object that "
     "lost its declaration the command that writes it. Ends with 1 if of some no right file was "
     "found."),
    ("expected", do_expected, "writes the list that `ocfl-scrub night --expected` takes",
     "--ids ids ~/audit > expected",
     [argument("--ids", metavar="FILE", help="the OCFL ids, one on each line"), STATE],
     "It has the paths of the objects of the last whole report, or with --ids of those in whose "
     "inventories these ids are. Then each inventory of the storage root is read. An id that no "
     "object has, or several have, and an object whose id cannot be read, are named on standard "
     "error, with status 1. So is a report if none is whole."),
    ("missing", do_missing, "shows which objects of a list have no line in a report",
     "expected ~/audit-parts/reports/cycle-000001",
     [argument("list", metavar="LIST", help="as `ocfl-scrub night --expected` takes it"),
      argument("report", metavar="REPORT", type=report_at,
               help="the closed report of a whole storage root, as that of all parts")],
     "It does over a closed report what `--expected` does when a cycle ends. Ends with 1 if one is "
     "missing."),
    ("tell", do_tell, "sends what a night said", "archive ~/audit",
     [argument("name", metavar="NAME"), *STATES],
     "It goes by mail to $MAIL or else to standard error; to both with JOURNAL=yes. systemd calls "
     "it after each night.")]


def example(words: str) -> dict[str, Any]:
    return {"epilog": "example:\n  %s %s" % (PROGRAM, words), "allow_abbrev": False,
            "formatter_class": argparse.RawDescriptionHelpFormatter}


def parser_of_all() -> Parser:
    parser = Parser(
        prog=PROGRAM, **example("findings ~/audit/reports/cycle-000001"),
        description="Asks reports and nights of ocfl-scrub. COMMAND --help has more on each.")
    commands = parser.add_subparsers(metavar="COMMAND", required=True)
    for name, does, short, shown, arguments, more in COMMANDS:
        made = commands.add_parser(
            name, help=short, **example("%s %s" % (name, shown)),
            description=textwrap.fill("%s. %s" % (short[0].upper() + short[1:], more), 79))
        made.set_defaults(does=does, parser=made)
        # A monitor takes 2 for an alarm.
        made.fault_status = 3 if name == "status" else 2
        for add in arguments:
            add(made)
    return parser


def joined(words: Sequence[str]) -> list[str]:
    """The words, with each limit and its value, which may begin with `-`, as one word."""
    made: list[str] = []
    for word in words:
        if made and made[-1] in [name for name, _, _ in LIMITS] and "--" not in made:
            made[-1] += "=" + word
        else:
            made.append(word)
    return made


def open_streams() -> None:
    """Opens those of the numbers 0 to 2 that are closed, so that no file of a folder gets one. What
    is written to standard output fails then."""
    for number in range(3):
        try:
            os.fstat(number)
        except OSError:
            os.open("/dev/null", os.O_WRONLY if number == 2 else os.O_RDONLY)
    if sys.stdout is None:
        sys.stdout = open(1, "w", closefd=False)
    if sys.stderr is None:
        sys.stderr = open(2, "w", closefd=False)


def drop_output() -> None:
    """What could not be written to standard output is not tried again at the end."""
    try:
        sys.stdout.flush()
    except OSError:
        os.dup2(os.open("/dev/null", os.O_WRONLY), 1)


def run() -> int:
    """Does what the command line asks in this process, which is the command's own."""
    signal.signal(signal.SIGPIPE, signal.SIG_DFL)
    open_streams()
    for end in (signal.SIGHUP, signal.SIGTERM, signal.SIGINT):
        signal.signal(end, lambda *_: sys.exit(3))
    sys.stdout.reconfigure(  # type: ignore[attr-defined]
        encoding=sys.getfilesystemencoding(), errors="surrogateescape")
    return main(sys.argv[1:])


def main(words: Sequence[str]) -> int:
    """Does what these words ask, and gives the status. What signals do stays as it was."""
    os.umask(0o027)
    try:
        given, odd = parser_of_all().parse_known_args(joined(words))
        if odd:
            given.parser.error("this is not known here: " + " ".join(odd))
        code = given.does(given) or 0
        sys.stdout.flush()
        return int(code)
    except Failed as error:
        files.print_error(str(error))
        return error.status
    except (OSError, ValueError, OverflowError, sqlite3.Error) as error:
        files.print_error("%s: %s" % (PROGRAM, error))
        drop_output()
        return 3
