"""The library's Rattle sources as Rust with a counter in every loop. Rattle's text is Rust's but for a few places, so what is changed is little:

1. `ghost use` lines, contracts (`requires { .. }`, `ensures { .. }`), each `impl Model` and the attributes `tactic` and `cycle` are taken
   out: they are for the proof, and no code.
2. In the crate `host` the attribute of an exported name is taken out: what a library for other crates has of it exports nothing.
3. `extern "C"` becomes `extern "C-unwind"`, so that a sum that overflows ends the call and not the program.
4. A loop's body starts with `turns::turn(K);`, the body of its function with `turns::run(K);`, and the body of a function that calls itself,
   by way of others or not, with `let _call = turns::call(K);`. In the crate `sums`, where the length of the slice that its
   function is lent says how many turns a loop takes, that starts with `let _run = turns::run_over(K, SLICE.len());` instead.
5. What is handed to `copy_from_slice`, what `fill` is called on and the test that `all` is handed go through `turns::copied(K, ..)`,
   `turns::filled(K, ..)` and `turns::tested(K, ..)`, which count a turn for each byte or number.

Nothing else is changed: names, numbers, conditions, order and crates stay as they are.
"""
import re
import subprocess
from dataclasses import dataclass
from pathlib import Path

from loops.library import EXPORTED, LIBRARY, Library, lines_of_crates

# The length of what its function is lent says how many turns a loop of this file takes, so that each run has to take what a formula says.
FILE_OF_THE_SUM = "crates/sums/src/lib.rt"


# Which function counts what a method of the standard library goes over.
WORDS_OF_WALKS = {"copy_from_slice": "copied", "fill": "filled", "all": "tested"}


class CannotRun(Exception):
    """Something is missing, or is not as it has to be for a count."""


@dataclass
class Counted:
    """What has a counter: a loop, or functions that call each other."""
    file: str
    functions: list


@dataclass
class Crate:
    name: str
    needs: list
    # The text of each of its files by the file's name, in Rust.
    texts: dict


def closing(text, start):
    """Where the bracket that opens at `start` is closed."""
    pairs = {"{": "}", "(": ")", "[": "]"}
    opening, close, depth = text[start], pairs[text[start]], 0
    for at in range(start, len(text)):
        depth += (text[at] == opening) - (text[at] == close)
        if depth == 0:
            return at
    raise CannotRun(f"a bracket is not closed: {text[start:start + 60]!r}")


def plain(text):
    """The text with blanks for comments and for what stands in quotes, each sign in its place."""
    return re.sub(r"//[^\n]*|\"(?:\\.|[^\"\\])*\"|'(?:\\.|[^'\\])'", lambda found: " " * len(found[0]), text)


def without_ghosts(text):
    text = re.sub(r"^ghost use [^;]*;\n", "", text, flags=re.M)
    while found := re.search(r"\n\s*\b(?:requires|ensures)\b(?:\s+\w+)?\s*\{", plain(text)):
        text = text[:found.start()] + text[closing(plain(text), found.end() - 1) + 1:]
    while found := re.search(r"^impl Model for \w+ \{", text, flags=re.M):
        text = text[:found.start()] + text[closing(plain(text), found.end() - 1) + 1:]
    return text.replace("use std::marker::Model;\n", "")


class Counters:
    """What has a counter, in the order of the counters: the loops, and the groups of functions that call each other."""

    def __init__(self, library):
        self.numbers, self.loops, self.recursions = {}, [], []
        for function in library.functions:
            for loop in function.loops + function.walks:
                self.numbers[function, loop] = len(self.loops)
                self.loops.append(Counted(function.file, [function.title]))
        self.cycles = library.cycles()
        for cycle in self.cycles:
            self.recursions.append(Counted(cycle[0].file, [function.title for function in cycle]))

    def put_into(self, function, text):
        """The counters of one function, each with its place in the text of its file."""
        head = "".join(" " + start_of_run(function, self.numbers[function, loop], text) for loop in function.loops + function.walks)
        head += "".join(f" let _call = turns::call({number});" for number, cycle in enumerate(self.cycles) if function in cycle)
        yield function.body_start, head
        for loop in function.loops:
            yield text.index("{", loop.end) + 1, f" turns::turn({self.numbers[function, loop]});"
        for walk in function.walks:
            word, number = WORDS_OF_WALKS[walk.head], self.numbers[function, walk]
            opened = text.index("(", walk.end)
            start, end = opened + 1, closing(plain(text), opened)
            if walk.head == "fill":
                # What is filled is a name, right before the method.
                start, end = text.rindex(" ", 0, walk.start) + 1, text.rindex(".", 0, walk.start)
            yield start, f"turns::{word}({number}, "
            yield end, ")"


def start_of_run(function, number, text):
    """What the body of a loop's function starts with."""
    if function.file != FILE_OF_THE_SUM:
        return f"turns::run({number});"
    head = text[text.rindex(f"fn {function.name}(", 0, function.body_start):function.body_start]
    slices = re.findall(r"(\w+): &\[(\[?)", head)
    if len(slices) != 1:
        raise CannotRun(f"{function.title} in {function.file} has a loop, and is not lent just one slice")
    name, is_of_arrays = slices[0]
    return f"let _run = turns::run_over({number}, {name}{'.as_flattened()' if is_of_arrays else ''}.len());"


def with_insertions(text, insertions):
    for at, words in sorted(insertions, reverse=True):
        text = text[:at] + words + text[at:]
    return text


def as_rust(crate, text):
    text = re.sub(r"^ *#!?\[(?:tactic|cycle)\(.*\)\]\n", "", without_ghosts(text), flags=re.M)
    if crate == EXPORTED:
        text = text.replace("#[unsafe(no_mangle)]\n", "")
    return text.replace('extern "C" fn', 'extern "C-unwind" fn')


def crates_below(root, needs):
    """The crates that `root` is built on and itself, each behind those that it is built on."""
    order = []

    def visit(name):
        if name in order or name not in needs:
            return
        for below in needs[name]:
            visit(below)
        order.append(name)

    visit(root)
    return order


def functions_in(module):
    yield from module.functions.values()
    for _, functions in module.impls:
        yield from functions


def own_crates(repository, library, counters):
    """The crates of the repository that the library is built on, as Rust, each behind those that it is built on."""
    needs = lines_of_crates(repository / "crates.txt")
    for name in crates_below(LIBRARY, needs):
        texts = {}
        for module in library.crates[name].all_modules():
            text = (repository / module.file).read_text()
            insertions = [one for function in functions_in(module) for one in counters.put_into(function, text)]
            texts["/".join(module.path or ("lib",))] = as_rust(name, with_insertions(text, insertions))
        yield Crate(name, [crate for crate in crates_below(name, needs) if crate != name], texts)


def compiled(words, folder):
    """Runs the Rust compiler with these words."""
    run = subprocess.run(["rustc", "--edition", "2021", "-O", "-C", "overflow-checks=on", "--cap-lints", "allow", "-L", folder, *words],
                         capture_output=True, text=True)
    if run.returncode:
        raise CannotRun("the Rust compiler refuses what the sources became:\n" + run.stderr)


def listed(name, counted):
    rows = "".join(f'    ("{one.file}", "{" ".join(one.functions)}"),\n' for one in counted)
    return f"pub const {name}: [(&str, &str); {len(counted)}] = [\n{rows}];\n"


def longest_piece(crates):
    """The constant of the crate `sums`, around which the lengths of checksums are built."""
    text = next(crate.texts["lib"] for crate in crates if crate.name == "sums")
    found = re.search(r"^const PIECE: usize = [0-9_]+;$", text, flags=re.M)
    if not found:
        raise CannotRun(f"{FILE_OF_THE_SUM} has no `const PIECE`, the longest piece that is summed with no fold")
    return f"pub {found[0]}\n"


def driver_of(repository, folder, shipped=None):
    """Writes the library with counters into `folder` and compiles it with the driver, and with the shipped library's object where that is given;
    hands back the program, the loops, the recursions and the names of the exported functions."""
    library = Library(str(repository))
    if library.faults:
        raise CannotRun("the sources can't be read: " + ": ".join(map(str, library.faults[0])))
    counters = Counters(library)
    crates = list(own_crates(repository, library, counters))
    here = Path(__file__).parent
    parts = [(here / "turns.rs").read_text(), listed("LOOPS", counters.loops), listed("RECURSIONS", counters.recursions), longest_piece(crates)]
    (folder / "turns.rs").write_text("\n".join(parts))
    compiled(["--crate-type", "rlib", "--crate-name", "turns", "--out-dir", folder, folder / "turns.rs"], folder)
    for crate in crates:
        for name, text in crate.texts.items():
            file = (folder / crate.name / name).with_suffix(".rs")
            file.parent.mkdir(parents=True, exist_ok=True)
            file.write_text(text)
        externs = [word for below in ["turns", *crate.needs]
                   for word in ("--extern", f"{below}={folder}/lib{below}.rlib")]
        compiled(["--crate-type", "rlib", "--crate-name", crate.name, "--out-dir", folder, *externs, folder / crate.name / "lib.rs"], folder)
    program = folder / "driver"
    externs = [word for name in ("turns", LIBRARY, "record", "sums") for word in ("--extern", f"{name}={folder}/lib{name}.rlib")]
    for source in here.glob("*.rs"):
        if source.name != "turns.rs":
            (folder / source.name).write_text(source.read_text())
    beside = ["--cfg", "shipped", "-C", f"link-arg={shipped}"] if shipped else []
    compiled(["--crate-name", "driver", *externs, *beside, folder / "main.rs", "-o", program], folder)
    return program, counters.loops, counters.recursions, [function.name for function in library.exported()]
