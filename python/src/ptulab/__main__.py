"""The command ``ptulab``, also ``python -m ptulab``: each of its commands is a function of the words that it was given."""

from __future__ import annotations

import argparse
import logging
import os
import re
import signal
import sys
import threading
from collections.abc import Callable, Iterable, Iterator, Sequence
from contextlib import ExitStack, contextmanager
from typing import Any

import ptulab

from ._advice import explained, of_other_file
from ._optional import want
from ._refusals import rule_of
from ._whole import written_whole
from ._command_line import command_line
from .errors import BadFileError, PtulabError, RefusalError
from .many import SummedFiles, count_files, sum_files
from .program import run as count_file
from .report import Report, read_report
from .texts import report_lines

LOG = logging.getLogger("ptulab.command")
PARTIAL, NONE = 3, 4  # the statuses where a sum lacks some of the files, and where there is none since all are left
Make = Callable[[list[str], dict[str, Any]], SummedFiles]
Given = argparse.Namespace


def info(given: Given) -> int:
    with _bytes_read(given) as progress:
        seen = ptulab.info(given.file, program=given.program, progress=progress)
    print(seen.json() if given.json else seen)
    return 0


def plan(given: Given) -> int:
    text = str(ptulab.plan_for(given.file))
    if given.out is None:
        sys.stdout.write(text)
    else:
        with written_whole(given.out) as out:
            out.write(text.encode("utf-8"))
    return 0


def check(given: Given) -> int:
    try:
        found = ptulab.check_plan(given.plan, given.file, program=given.program)
    except BadFileError as error:
        _say([str(error), *(of_other_file(given.file) if error.status == 10 else ())])
        return 1
    for one in found:
        print(f"{'refused' if one.refused else 'warning'}: {one}")
    for rule in sorted({one.rule for one in found if one.rule}):
        print(f"rule {rule}: {rule_of(rule)}")
    if not found:
        print(f"{given.plan}: good")
    return int(any(one.refused for one in found))


def run(given: Given) -> int:
    try:
        report = count_file(given.plan, given.file, program=given.program, progress=_is_shown(given))
    except RefusalError as refusal:
        _say(explained(refusal, given.plan, given.file))
        return refusal.status if 0 < refusal.status < 128 else 1
    _write(report_lines(report), given.out)
    return 0


def add(given: Given) -> int:
    return _summed(given, given.reports, lambda paths, more: sum_files(paths, given.plan, **more))


def count(given: Given) -> int:
    try:
        return _summed(given, given.files, lambda paths, more: count_files(given.plan, paths, program=given.program, **more))
    except RefusalError as refusal:
        _say(explained(refusal, given.plan, ""))
        return 1


def page(given: Given) -> int:
    if given.report == "-" and given.out is None:
        given.parser.error("say where the page of standard input goes: -o OUT")
    out = given.out or f"{given.report.removesuffix('.txt')}.html"
    ptulab.write_page(_report(given), out, file=given.file, plan=given.plan, program=given.program)
    return 0


def export(given: Given) -> int:
    if not (given.csv or given.json or given.npz):
        given.parser.error("say what to write: --csv FOLDER, --json OUT or --npz OUT")
    report = _report(given)
    tables = [report.table(kind, _number(given, number)) for kind, number in given.table] or list(report.tables)
    if given.csv:
        ptulab.exports.write_csv(tables, given.csv)
    if given.json:
        ptulab.exports.write_json(report, given.json, tables)
    if given.npz:
        ptulab.exports.write_npz(Report(report.head, tuple(tables)), given.npz)
    return 0


def app(given: Given) -> int:
    ptulab.app.serve(given.folder, port=given.port, browser=not given.no_browser, program=given.program)
    return 0


# ## What they share


def _say(lines: Iterable[str]) -> None:
    print(*(f"ptulab: {line}" for line in lines), sep="\n", file=sys.stderr)


def _report(given: Given) -> Report:
    source = sys.stdin.buffer.read() if given.report == "-" else given.report
    return read_report(source, given.plan)


def _number(given: Given, text: str) -> int:
    if not text.isdigit():
        given.parser.error(f"--table {text}: the number of a table is wanted, as in --table trace 1")
    return int(text)


def _is_shown(given: Given) -> bool:
    """Whether a bar is shown: on a terminal, where tqdm is there."""
    if given.quiet or not sys.stderr.isatty():
        return False
    try:
        want("tqdm", "a bar")
    except PtulabError:
        return False
    return True


@contextmanager
def _bytes_read(given: Given) -> Iterator[Callable[[int], None] | None]:
    """What is called with the bytes of a file that were read, where a bar is shown."""
    if not _is_shown(given):
        yield None
        return
    with want("tqdm", "a bar").tqdm(total=os.path.getsize(given.file), unit="B", unit_scale=True, desc=os.path.basename(given.file)) as bar:

        def update(read: int) -> None:
            bar.update(read - bar.n)

        yield update


def _write(pieces: Iterable[bytes], out: str | None) -> None:
    """To a file that appears when it is whole, or to standard output, whose end tells of a full disk."""
    if out is None:
        with open(1, "wb", closefd=False) as file:
            file.writelines(pieces)
        return
    with written_whole(out) as file:
        file.writelines(pieces)


def _summed(given: Given, paths: list[str], make: Make) -> int:
    """Makes a sum, and ends in an orderly way where it is ended."""
    found = re.fullmatch("([0-9]+)/([0-9]+)", given.share)
    share, of = (int(found[1]), int(found[2])) if found else (0, 0)
    if share >= of:
        given.parser.error(f"--share {given.share} isn't K/N with K below N")
    these = (paths + _listed(given.listed))[share::of]
    if not these:
        given.parser.error("no file is named")
    with ExitStack() as ends:
        if threading.current_thread() is threading.main_thread():
            before = signal.signal(signal.SIGTERM, lambda number, frame: sys.exit(128 + number))
            ends.callback(signal.signal, signal.SIGTERM, before)
        client = None
        if given.scheduler:
            client = ends.enter_context(want("distributed", "many machines").Client(given.scheduler, timeout=given.patience))
        more = {"processes": given.processes, "client": client, "progress": not given.quiet, "out": given.out, "patience": given.patience}
        whole = make(these, more)
    return _told(whole, given.out, given.left)


def _listed(path: str | None) -> list[str]:
    """The lines of a list of paths."""
    if path is None:
        return []
    with open(0 if path == "-" else path, encoding="utf-8", errors="surrogateescape") as lines:
        return [line for line in lines.read().split("\n") if line]


def _told(whole: SummedFiles, out: str | None, left: str | None) -> int:
    """Tells what isn't in a sum, and which of its files may be cut, and writes it where that wasn't done."""
    lines = [f"{one.path}: not added: {one.why}{f' ({one.host})' if one.host else ''}" for one in whole.left]
    lines += [f"{path}: added, but {words}" for path, words in whole.odd]
    for line in [*lines, *(f"{host} was left out: {why}" for host, why in whole.left_out)]:
        LOG.warning("%s", line)
    if left is not None:
        with written_whole(left) as file:
            file.write("".join(f"{line}\n" for line in lines).encode("utf-8", errors="surrogateescape"))
    if whole.report is None:
        return NONE
    if out is None:
        _write(report_lines(whole.report), None)
    return PARTIAL if whole.left else 0


@contextmanager
def _logged(quiet: bool) -> Iterator[None]:
    """What the package logs goes to standard error: what is left out or guessed."""
    handler, logger = logging.StreamHandler(), logging.getLogger("ptulab")
    handler.setLevel(logging.ERROR if quiet else logging.WARNING)
    logger.addHandler(handler)
    try:
        yield
    finally:
        logger.removeHandler(handler)


COMMANDS: dict[str, Callable[[Given], int]] = {
    "info": info, "plan": plan, "check": check, "run": run, "sum": add, "count": count, "page": page, "export": export, "app": app
}


def main(words: Sequence[str] | None = None) -> int:
    """Runs a command by its words, by default those of the command line; gives its status."""
    try:
        given = command_line().parse_args(words)
    except SystemExit as end:
        return int(end.code or 0)
    try:
        with _logged(given.quiet):
            return COMMANDS[given.command](given)
    except (PtulabError, OSError) as error:
        print(f"ptulab: {error}", file=sys.stderr)
    except KeyboardInterrupt:
        return 128 + signal.SIGINT
    return 1


if __name__ == "__main__":
    sys.exit(main())
