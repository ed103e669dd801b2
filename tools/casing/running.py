"""Runs the entries of a file of cases one after another, and reports what does not hold."""

from functools import partial

import comparing
import faults
from entries import FileFault, entries_of
from faults import Fault, LeftOut
from inserts import Names, Scope
from verifying import Verified

# The tables that are compared here, and the kinds that bb_cases runs.
TABLES = {b"inputs": comparing.Inputs, b"bytes": comparing.Spelled, b"assembly": comparing.Spelled, b"verify": Verified}
OTHERS = (b"moves", b"histories", b"code", b"runs", b"schema")


class Report:
    """What there is to say of a file, and how many of its cases passed and failed."""

    def __init__(self, file, part, parts):
        self.file, self.part, self.parts = file, part, parts
        self.lines, self.marked, self.count = [], [], 0
        self.passed = self.failed = self.left_out = 0

    def run(self, line, header, compare):
        """Adds what comes of a case, if it is in this part of the file."""
        self.count += 1
        if self.count % self.parts != self.part:
            return
        try:
            outcome = compare()
        except Fault as fault:
            outcome = fault
        self.add(line, header, outcome)

    def fault(self, line, header, fault):
        """Adds a fault of an entry that is no single case, which each part of the file finds."""
        if self.part == 0:
            self.add(line, header, fault)

    def add(self, line, header, outcome):
        """Adds what came of a case: nothing, its first difference, or why it can't be run. A wrong one has to differ."""
        if isinstance(outcome, LeftOut):
            self.left_out += 1
            return
        is_wrong = header is not None and header.wrong
        if outcome is None and not is_wrong:
            self.passed += 1
            return
        is_right = is_wrong and isinstance(outcome, comparing.Difference)
        self.passed += is_right
        self.failed += not is_right
        name = header.name.decode(errors="replace") if header else "the file"
        told = f"{self.file}:{line}: {name}: {said_of(outcome)}"
        if is_right:
            self.marked.append((self.file, line, f"Wrong, as it is marked: {told}"))
        else:
            self.lines.append((self.file, line, told))


def said_of(outcome):
    """What is said of a case that did not hold, or that is marked as wrong and held."""
    if outcome is None:
        return "it is marked as wrong, and holds"
    if isinstance(outcome, comparing.Difference):
        where = f"line {outcome.line}" if outcome.line else "the status"
        return f"{where}\n    wanted {outcome.wanted}\n    given  {outcome.given}"
    return str(outcome)


class Suite:
    """The programs, and the names that hold in all files."""

    def __init__(self, programs):
        self.programs = programs
        self.shared = {}

    def share(self, path):
        """Runs the file whose names hold in all files."""
        names = Names()
        report = self.run(Report(path.name, 0, 1), path, names)
        self.shared = names.own
        return report

    def run_file(self, path, part, parts):
        """Runs a part of the cases of a file: the others are read alone."""
        return self.run(Report(path.name, part, parts), path, Names(self.shared))

    def run(self, report, path, names):
        """The report on the cases of a file."""
        try:
            entries = entries_of(path.read_bytes())
        except FileFault as fault:
            report.fault(fault.line, None, fault)
            return report
        except OSError:
            report.fault(0, None, faults.FILE)
            return report
        for entry in entries:
            try:
                self.run_entry(report, names, entry)
            except Fault as fault:
                report.fault(entry.first.line, entry.first, fault)
        return report

    def run_entry(self, report, names, entry):
        """Names what an entry names, or runs its cases."""
        kind = entry.first.kind
        if kind in (b"let", b"board"):
            self.define(names, entry)
        elif kind == b"input":
            compare = partial(comparing.compare_input, self.programs, names, entry)
            report.run(entry.first.line, entry.first, compare)
        elif kind in TABLES:
            self.run_table(report, names, entry)
        elif kind not in OTHERS:
            raise Fault(faults.KIND)

    def define(self, names, entry):
        """Names a text. What a board is only bb_cases has to know."""
        if entry.second is not None:
            raise Fault(faults.SECOND)
        if entry.first.kind == b"board":
            names.add(entry.first.name, None)
            return
        entry.first.check(())
        try:
            text = Scope(names, self.programs.code).expanded(entry.first.text())
        except LeftOut as why:
            text = why
        names.add(entry.first.name, text)

    def run_table(self, report, names, entry):
        """Runs the rows of a table."""
        rows = entry.rows()
        table = TABLES[entry.first.kind](self.programs, names, entry)
        for row in rows:
            report.run(row.line, entry.first, partial(table.compare, row))
