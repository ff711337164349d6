"""The page held to the library, and each number that falls to the proof that has it."""
import os
import re

from loops.library import Library
from loops.page import PAGE, Page, code_in
from loops.sources import words_of

# What the name of a measure starts with in a proof.
MEASURE = "decreases-"


def proof_of(library, function):
    """The file of a function's invariants and measures, and what stands before the names of its loops' measures there."""
    proofs = f"crates/{function.module.crate}/proofs"
    cycle = library.cycle(function)
    if not cycle:
        return "/".join((proofs,) + function.place + ("Invariants.antt",)), ""
    below = "/".join((proofs,) + common_place(cycle))
    return f"{below}/+{function.cycle_name or function.name}/Invariants.antt", function.name + "-"


def common_place(cycle):
    """The modules, and the type, that all functions of a cycle stand in."""
    common = cycle[0].place[:-1]
    for function in cycle:
        while function.place[:-1][:len(common)] != common:
            common = common[:-1]
    return common


def measures_in(folder, proof):
    """The measures that a file defines: by each name what stands right of the `=`, of every definition of it."""
    try:
        with open(os.path.join(folder, proof), encoding="utf-8") as opened:
            lines = opened.read().split("\n")
    except OSError:
        return {}
    found = {}
    for at, line in enumerate(lines):
        name = line.split(" ")[0]
        if not name.startswith(MEASURE) or line.split()[1:2] == [":"]:
            continue
        end = at + 1
        while end < len(lines) and lines[end].startswith(" "):
            end += 1
        whole = " ".join(re.sub(r"(^|\s)--.*", "", part) for part in lines[at:end])
        found.setdefault(name, []).append(" ".join(re.split(r"\s=\s", whole + " ", maxsplit=1)[-1].split()))
    return found


def measure_of_loop(library, function, loop):
    """The file, the name and the measure of a loop. A proof names a loop by a variable of its own choice, so of the names that fit the one that
    is there is taken; without a measure where none or several are, or where another loop of the function may have the same name."""
    proof, before = proof_of(library, function)
    wanted = {MEASURE + before + name for name in loop.names}
    found = measures_in(library.folder, proof)
    there = sorted(wanted & found.keys())
    name = there[0] if len(there) == 1 else MEASURE + before + "loop"
    of_others = {MEASURE + before + other for each in function.loops if each is not loop for other in each.names}
    is_one = len(there) == 1 and len(found[name]) == 1 and name not in of_others
    return proof, name, found[name][0] if is_one else None


def measure_of_function(library, function):
    """The same of a function that comes to call itself."""
    proof, _ = proof_of(library, function)
    name = MEASURE + function.name
    found = measures_in(library.folder, proof).get(name, [])
    return proof, name, found[0] if len(found) == 1 else None


class Comparison:
    def __init__(self, folder):
        self.library = Library(folder)
        self.faults = list(self.library.faults)
        if self.faults:
            # Of what is not read whole it can't be told what is missing.
            return
        self.page = Page(folder)
        self.faults += self.page.faults
        self.compare_loops()
        self.compare_recursions()
        self.compare_calls()

    def fault(self, file, line, what):
        self.faults.append((file, line, what))

    # -- Loops. --

    def compare_loops(self):
        wanted = {}
        for function in self.library.functions:
            for loop in function.loops + function.walks:
                wanted.setdefault((function.file, function.title, loop.words), []).append((function, loop))
        rows = self.rows_of_loops()
        for key, loops in wanted.items():
            here = rows.get(key, [])
            for function, loop in loops[len(here):]:
                self.fault(function.file, loop.line, f"the loop '{loop.head}' of '{function.title}' is not in {PAGE}")
            for row in here[len(loops):]:
                self.fault(PAGE, row.line, f"the loop '{loops[0][1].head}' of '{key[1]}' has a row already")
            for (function, loop), row in zip(loops, here):
                self.compare_measure(function, loop, row)
        for key in rows.keys() - wanted.keys():
            for row in rows[key]:
                self.fault(PAGE, row.line, self.why_no_loop(row))

    def rows_of_loops(self):
        rows = {}
        for row in self.page.loops:
            codes = [code_in(row.cells[column]) for column in ("file", "function", "loop")]
            if any(len(code) != 1 for code in codes):
                self.fault(PAGE, row.line, "the cells under 'file', 'function' and 'loop' each have one thing in backticks")
                continue
            (file,), (function,), (head,) = codes
            rows.setdefault((file, function, words_of(head)), []).append(row)
        return rows

    def why_no_loop(self, row):
        (file,), (title,), (head,) = (code_in(row.cells[column]) for column in ("file", "function", "loop"))
        here = [function for function in self.library.functions if function.file == file]
        named = [function for function in here if function.title == title]
        if not here:
            return f"the library has no file '{file}' with a function in it"
        if not named:
            return f"there is no function '{title}' in {file}"
        return f"the function '{title}' in {file} has no loop '{head}'"

    def compare_measure(self, function, loop, row):
        # What walks is of the standard library, and its measure too.
        if loop not in function.walks:
            self.compare_falls(measure_of_loop(self.library, function, loop), code_in(row.cells["falls"]), row,
                               f"the loop '{loop.head}' of '{function.title}'", loop.line, function.file)

    def compare_falls(self, measure, said, row, what, line, file):
        proof, name, proved = measure
        if proved is None:
            self.fault(file, line, f"{what} has no one measure '{name}' in {proof}")
        elif said != [proved]:
            self.fault(PAGE, row.line, f"for {what} the number that falls is '{proved}' by {proof}, not '{', '.join(said)}'")

    # -- Recursion. --

    def compare_recursions(self):
        wanted = {recursion_key(cycle): cycle for cycle in self.library.cycles()}
        rows = {}
        for row in self.page.recursions:
            key = (tuple(sorted(set(code_in(row.cells["file"])))), tuple(sorted(code_in(row.cells["functions"]))))
            rows.setdefault(key, []).append(row)
        for key, cycle in wanted.items():
            said = said_of(cycle)
            if key not in rows:
                self.fault(cycle[0].file, cycle[0].line, f"{said}, which is not in {PAGE}")
                continue
            for row in rows[key][1:]:
                self.fault(PAGE, row.line, f"that {said} has a row already")
            self.compare_measures(cycle, rows[key][0])
        for key in rows.keys() - wanted.keys():
            for row in rows[key]:
                self.fault(PAGE, row.line, f"there is no recursion of just {quoted(key[1])} in {', '.join(key[0])}")

    def compare_measures(self, cycle, row):
        titles, falls = code_in(row.cells["functions"]), code_in(row.cells["falls"])
        if len(titles) != len(falls):
            self.fault(PAGE, row.line, f"that {said_of(cycle)} needs a measure in backticks for each of {quoted(titles)}")
            return
        by_title = {function.title: function for function in cycle}
        if len(by_title) != len(cycle):
            self.fault(PAGE, row.line, "tools/check-loops can't read a recursion of two functions with one name")
            return
        for title, said in zip(titles, falls):
            function = by_title[title]
            self.compare_falls(measure_of_function(self.library, function), [said], row, f"the recursion of '{title}'", function.line, function.file)

    # -- Exported functions. --

    def compare_calls(self):
        exported = {function.name: function for function in self.library.exported()}
        seen = set()
        for row in self.page.calls:
            names = code_in(row.cells["call"])
            if not names:
                self.fault(PAGE, row.line, "the cell under 'call' has nothing in backticks")
            for name in names:
                if name not in exported:
                    self.fault(PAGE, row.line, f"there is no exported function '{name}'")
                elif name in seen:
                    self.fault(PAGE, row.line, f"the exported function '{name}' has a row already")
                seen.add(name)
        for name, function in exported.items():
            if name not in seen:
                self.fault(function.file, function.line, f"the exported function '{name}' is not under 'Whole calls' in {PAGE}")

    def summary(self):
        counts = [(len(self.page.loops), "loop"), (len(self.page.recursions), "recursion"), (len(self.library.exported()), "exported function")]
        return f"{PAGE}: " + ", ".join(f"{count} {word}{'' if count == 1 else 's'}" for count, word in counts) + ": all there"


def recursion_key(cycle):
    return tuple(sorted({function.file for function in cycle})), tuple(sorted(function.title for function in cycle))


def quoted(names):
    return " and ".join(f"'{name}'" for name in names)


def said_of(cycle):
    titles = quoted(sorted(function.title for function in cycle))
    return f"{titles} calls itself" if len(cycle) == 1 else f"{titles} call each other"


def check(folder):
    comparison = Comparison(folder)
    for file, line, what in sorted(set(comparison.faults)):
        print(f"{file}:{line}: {what}")
    if comparison.faults:
        return 1
    print(comparison.summary())
    return 0
