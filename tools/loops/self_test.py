"""Faults put into copies of the tree, one each: whether tools/check-loops finds them."""
import os
import re
import shutil
import subprocess
import sys
import tempfile
from collections import namedtuple
from concurrent.futures import ThreadPoolExecutor

from loops.comparison import Comparison, check, measure_of_function, measure_of_loop, quoted
from loops.library import EXPORTED, LIBRARY
from loops.page import PAGE, code_in
from loops.sources import WALKS

SCRIPT = os.path.join(os.path.dirname(os.path.dirname(os.path.abspath(__file__))), "check-loops")

# What is done to a copy of the tree, and the words that one line of the answer then has to hold; none where it has to pass.
Case = namedtuple("Case", "title edit said")


class Tree:
    """A copy of what this script reads, which takes one fault after the other."""

    def __init__(self, folder, root):
        self.folder, self.before = folder, {}
        for name in os.listdir(os.path.join(root, "crates")):
            for part in ("src", "proofs"):
                source = os.path.join(root, "crates", name, part)
                if os.path.isdir(source):
                    shutil.copytree(source, self.path(f"crates/{name}/{part}"))
        shutil.copy(os.path.join(root, "crates.txt"), folder)
        os.makedirs(os.path.dirname(self.path(PAGE)))
        shutil.copy(os.path.join(root, PAGE), self.path(PAGE))

    def path(self, file):
        return os.path.join(self.folder, file)

    def read(self, file):
        with open(self.path(file), encoding="utf-8") as opened:
            return opened.read()

    def write(self, file, text):
        """Writes a file, or removes it where the text is None."""
        old = self.read(file) if os.path.isfile(self.path(file)) else None
        self.before.setdefault(file, old)
        if text is None:
            os.remove(self.path(file))
        else:
            with open(self.path(file), "w", encoding="utf-8") as opened:
                opened.write(text)

    def is_changed(self):
        return any(old is None or not os.path.isfile(self.path(file)) or self.read(file) != old for file, old in self.before.items())

    def restore(self):
        before, self.before = self.before, {}
        for file, old in before.items():
            self.write(file, old)
        self.before = {}

    def replace(self, file, old, new):
        self.write(file, self.read(file).replace(old, new, 1))

    def put_into(self, function, code):
        """Puts code at the front of a function's body."""
        text = self.read(function.file)
        self.write(function.file, text[:function.body_start] + code + text[function.body_start:])

    def append(self, file, code):
        self.write(file, self.read(file) + code)

    def lines(self):
        return self.read(PAGE).split("\n")

    def replace_line(self, number, *lines):
        all_lines = self.lines()
        self.write(PAGE, "\n".join(all_lines[:number - 1] + list(lines) + all_lines[number:]))


def into(function, code):
    return lambda tree: tree.put_into(function, code)


def first(functions, what):
    for function in functions:
        return function
    raise SystemExit(f"self-test: the library has no {what}")


def path_to(function):
    return "::".join((function.module.crate,) + function.place)


def line_in(function, library, code, word):
    """The line on which `word` stands once the code is put into the function."""
    with open(os.path.join(library.folder, function.file), encoding="utf-8") as opened:
        before = opened.read()[:function.body_start]
    return (before + code[:code.index(word)]).count("\n") + 1


def new_loops(library):
    """A new loop in a function, written in many ways."""
    victim = first((f for f in library.functions if not f.loops and not library.cycle(f)), "function without a loop")
    looping = first((f for f in library.functions if f.loops), "function with a loop")
    ways = [
        ("while", victim, "\n    while i < 7 {\n        i += 1;\n    }", "while i < 7"),
        ("loop", victim, "\n    loop {\n        break;\n    }", "loop"),
        ("for", victim, "\n    for new in 0..7 {}", "for new in 0..7"),
        ("a labelled loop", victim, "\n    'new: while i < 7 {}", "'new: while i < 7"),
        ("indented oddly", victim, "\n\t           while\n  i\n<   7\n{ }", "while i < 7"),
        ("on the line of the brace", victim, " while i < 7 { }", "while i < 7"),
        ("behind a comment on its line", victim, "\n    /* none */ while i < 7 {}", "while i < 7"),
        ("behind comments in each other", victim, "\n    /* a /* b */ c */ while i < 7 {}", "while i < 7"),
        ("a comment in the head", victim, "\n    while i /* at */ < 7 // seven\n    {}", "while i < 7"),
        ("behind a text with a comment's signs", victim, '\n    let t = b"//"; while i < 7 {}', "while i < 7"),
        ("between two quotes as letters", victim, "\n    let a = b'\"'; while i < 7 {} let b = b'\"';", "while i < 7"),
        ("in a match arm", victim, "\n    match 3 {\n        _ => { while i < 7 {} }\n    }", "while i < 7"),
        ("in nested blocks", victim, "\n    { if true { { for new in 0..7 {} } } }", "for new in 0..7"),
        ("in the argument of a call", victim, "\n    Guest::of({ while i < 7 {} 3 });", "while i < 7"),
        ("with a call in its head", victim, "\n    while (X { a: 1 }).a < 7 {}", "while (X { a: 1 }).a < 7"),
        ("beside another loop", looping, "\n    while i < 7 {}", "while i < 7"),
        ("around another loop", looping, "\n    while i < 7 { loop { break; } }", "while i < 7"),
        ("in another loop", looping, "\n    while i < 7 { loop { break; } }", "loop"),
    ]
    for title, function, code, head in ways:
        code = code.replace("Guest::of", path_to(victim))
        word = re.match(r"\S*:?", head)[0] if title != "in another loop" else "loop {"
        line = line_in(function, library, code, word)
        yield Case(f"new loop: {title}", into(function, code), f"{function.file}:{line}: the loop '{head}' of '{function.title}' is not in {PAGE}")
    same = looping.loops[0]
    yield Case("new loop: with the head of one that is there", into(looping, f"\n    {same.head} {{}}"),
               f"the loop '{same.head}' of '{looping.title}' is not in {PAGE}")


def new_places(library):
    """A new loop in a place of its own: a function, a method, a module."""
    root = library.crates[LIBRARY].file
    new = "\nfn newly_added(n: usize) -> usize\n    ensures { result ≡ n }\n{\n    while n < 7 {}\n    n\n}\n"
    said = "the loop 'while n < 7' of 'newly_added' is not in"
    yield Case("new loop: in a new function", lambda tree: tree.append(root, new), said)
    yield Case("new loop: in a method", lambda tree: tree.append(root, "\nstruct New { n: usize }\n\nimpl New {" + new + "}\n"),
               "the loop 'while n < 7' of 'New::newly_added' is not in")

    def add_module(tree, declared):
        tree.write(root.replace("lib.rt", "newly.rt"), new)
        if declared:
            tree.append(root, "\nmod newly;\n")

    yield Case("new loop: in a module of its own", lambda tree: add_module(tree, True), f"crates/{LIBRARY}/src/newly.rt:5: {said}")
    yield Case("new loop: in a file that no 'mod' leads to", lambda tree: add_module(tree, False), f"crates/{LIBRARY}/src/newly.rt:1: no 'mod' line")


def changed_loops(library):
    """Each loop of ours with another head, and each measure of ours with another number."""
    for function in library.functions:
        for loop in function.loops:
            said = f"the loop '{loop.head}' of '{function.title}'"
            for other in other_heads(loop.head):
                yield Case(f"another head: {said}", change_head(function, loop, other), f"the loop '{other}' of '{function.title}' is not in")
            yield from changed_measures(*measure_of_loop(library, function, loop), said)
    for cycle in library.cycles():
        for function in cycle:
            yield from changed_measures(*measure_of_function(library, function), f"the recursion of '{function.title}'")


def other_heads(head):
    """The head with a new label, and with another test where it has one that can be turned."""
    yield "'new: " + re.sub(r"^'\w+: ", "", head)
    if " < " in head:
        yield head.replace(" < ", " <= ")


def change_head(function, loop, other):
    def edit(tree):
        text = tree.read(function.file)
        tree.write(function.file, text[:loop.start] + other + text[loop.end:])
    return edit


def changed_measures(proof, name, measure, said):
    def change(pattern, new):
        return lambda tree: tree.write(proof, re.sub(pattern, new, tree.read(proof), count=1, flags=re.M))

    defined = rf"^({re.escape(name)} (?!:)[^=\n]*=)"
    yield Case(f"another measure in the proof: {said}", change(defined, r"\1 1 +"), f"for {said} the number that falls is '1 + {measure}'")
    yield Case(f"no measure in the proof: {said}", change(defined, r"-- \1"), f"{said} has no one measure '")
    yield Case(f"two measures in the proof: {said}", change(defined, rf"{name} l = 1\n\1"), f"{said} has no one measure '{name}'")
    yield Case(f"no proof: {said}", lambda tree: tree.write(proof, None), f"{said} has no one measure '")


def changed_page(page):
    """The page with a row left out, with a row twice, with a row of nothing, with other numbers."""
    for title, rows in (("Loops", page.loops), ("Recursion", page.recursions), ("Whole calls", page.calls)):
        for row in rows:
            said = row_title(title, row)
            yield Case(f"no row: {said}", lambda tree, row=row: tree.replace_line(row.line), missing(title, row))
            yield Case(f"twice: {said}", lambda tree, row=row: tree.replace_line(row.line, *[tree.lines()[row.line - 1]] * 2),
                       f"{PAGE}:{row.line + 1}: ")
            for column in ("file", "function", "functions", "loop", "falls", "call"):
                if row.cells.get(column, "").startswith("`"):
                    yield Case(f"another '{column}': {said}", with_cell(row, column, "`other" + row.cells[column][1:]), f"{PAGE}:{row.line}: ")
        for column in rows[0].cells if rows else ():
            yield Case(f"nothing under '{column}' of {title}", with_cell(rows[0], column, ""), f"{PAGE}:{rows[0].line}: a row with an empty cell")
    yield Case("another column", lambda tree: tree.replace(PAGE, "| turns at most |", "| turns |"), "under '## Loops' there is not one table")
    yield Case("another heading", lambda tree: tree.replace(PAGE, "## Recursion", "## Recursions"), "under '## Recursion' there is not one table")
    yield Case("no page", lambda tree: tree.write(PAGE, None), f"{PAGE}:1: there is no such file")


def row_title(title, row):
    return f"{title}, line {row.line}"


def missing(title, row):
    """What is said where the row is not there."""
    if title == "Loops":
        return f"the loop '{code_in(row.cells['loop'])[0]}' of '{code_in(row.cells['function'])[0]}' is not in {PAGE}"
    if title == "Recursion":
        return f"which is not in {PAGE}"
    return f"the exported function '{code_in(row.cells['call'])[0]}' is not under 'Whole calls'"


def with_cell(row, column, cell):
    cells = [cell if name == column else old for name, old in row.cells.items()]
    return lambda tree: tree.replace_line(row.line, "| " + " | ".join(old.replace("|", "\\|") for old in cells) + " |")


def new_recursions(library):
    """Calls that come back: to the function itself, over modules, over crates, over methods, over other names."""
    own = [function for function in library.functions if not library.cycle(function)]
    plain = first((f for f in own if not f.owner), "function outside of types")
    method = first((f for f in own if f.takes_self), "method")
    calls = [(f, g) for f in own for g in sorted(f.callees, key=path_to) if g in own]
    over_crates = first(((f, g) for f, g in calls if f.module.crate != g.module.crate), "call over crates")
    over_modules = first(((f, g) for f, g in calls if f.module.root is g.module.root and f.module is not g.module), "call over modules")
    to_method = first(((f, g) for f, g in calls if g.takes_self and not f.owner), "call of a method by a function")
    exported = first((f for f in own if f.is_exported and not f.module.modules and f.module.parent), "exported function in a module")
    itself = "'{0.title}' calls itself, which is not in"
    yield Case("calls itself", into(plain, f"\n    {plain.name}();"), itself.format(plain))
    yield Case("calls itself by crate::", into(plain, "\n    " + "::".join(("crate",) + plain.place) + "();"), itself.format(plain))
    yield Case("calls itself by self::, inside of an if", into(plain, f"\n    if self::{plain.name}() {{}}"), itself.format(plain))
    yield Case("calls itself as a method", into(method, f"\n    self.{method.name}();"), itself.format(method))
    yield Case("calls itself by Self::", into(method, f"\n    Self::{method.name}(self);"), itself.format(method))
    yield Case("calls itself by its type", into(method, f"\n    {method.owner}::{method.name}(self);"), itself.format(method))
    for title, (f, g) in (("two crates", over_crates), ("two modules", over_modules), ("a function and a method", to_method)):
        yield Case(f"call each other: {title}", into(g, f"\n    {path_to(f)}();"),
                   (f"'{f.title}'", f"'{g.title}'", f"call each other, which is not in {PAGE}"))

    def by_another_name(tree):
        tree.append(exported.module.parent.file, f"\npub use {exported.module.path[-1]}::{exported.name} as another_name;\n")
        tree.put_into(exported, "\n    brought();")
        tree.append(exported.file, "\nuse crate::another_name as brought;\n")

    yield Case("calls itself by a name that 'pub use' and 'use' give", by_another_name, itself.format(exported))

    def method_of_a_new_type(tree):
        tree.append(plain.file, f"\nstruct New {{ n: usize }}\n\nimpl New {{\n    fn newly(self) -> usize {{\n        {plain.name}()\n    }}\n}}\n")
        tree.put_into(plain, "\n    new.newly();")

    yield Case("call each other: through a method of a new type", method_of_a_new_type,
               f"{quoted(sorted(['New::newly', plain.title]))} call each other")
    cycle = first(iter(library.cycles()), "recursion")
    caller = first((f for f in own if f not in cycle and any(g in f.callees for g in cycle)), "call of a recursion")
    yield Case("a recursion with one function more", into(cycle[0], f"\n    {path_to(caller)}();"), "there is no recursion of just")


def new_calls(library):
    """New exported functions, and calls of the standard library."""
    root = library.crates[LIBRARY].file
    body = '(n: u32) -> u32 {\n    n\n}\n'
    for title, head in (("with both words", '#[unsafe(no_mangle)]\npub extern "C" fn'), ("by its name alone", "#[unsafe(no_mangle)]\npub fn"),
                        ("without its name", 'pub extern "C" fn')):
        yield Case(f"new exported function {title}", lambda tree, head=head: tree.append(root, f"\n{head} newly_exported{body}"),
                   "the exported function 'newly_exported' is not under 'Whole calls'")
    victim = first((f for f in library.exported()), "exported function")
    inner = first((f for f in library.functions if f.is_exported and f.module.crate == EXPORTED), "exported function below")
    for walk in WALKS:
        walking = first((f for f in library.functions if any(each.head == walk for each in f.walks)), f"call of '{walk}'")
        for function in (victim, inner):
            yield Case(f"new '{walk}' in {path_to(function)}", into(function, f"\n    a.{walk}(b);"),
                       f"the loop '{walk}' of '{function.title}' is not in {PAGE}")
        yield Case(f"a second '{walk}' beside one", into(walking, f"\n    a.{walk}(b);"),
                   f"the loop '{walk}' of '{walking.title}' is not in {PAGE}")
        yield Case(f"no '{walk}' any more", lambda tree, walking=walking, walk=walk: tree.replace(walking.file, f".{walk}(", ".len("),
                   f"the function '{walking.title}' in {walking.file} has no loop '{walk}'")
    for code in ("std::mem::swap(x, y)", "std::num::wrapping_add_u8(x, y)", "std::min(x, y)", "core::cmp::min(x, y)",
                 "x.sum()", "x.for_each(f)", "x.clone()", "x.sort()", "x.sum::<8>()"):
        word = code[:code.index("(")].removesuffix("::<8>")
        name = "." + word.split(".")[1] if "." in word else word
        yield Case(f"call of the standard library: {code}", into(inner, f"\n    {code};"), f"the call '{name}(..)' in '{inner.title}' leads to no function")
    yield Case("a function of the standard library under another name", lambda tree: (
        tree.append(inner.file, "\nuse std::mem::swap as swapped;\n"), tree.put_into(inner, "\n    swapped(x, y);")),
        f"the call 'swapped(..)' in '{inner.title}' leads to no function")


def unread_things(library):
    """What this script can't read."""
    victim = first((f for f in library.functions if not f.loops and not f.owner), "function without a loop")
    root = library.crates[LIBRARY].file
    for title, code, said in [
        ("a call of nothing known", "\n    nowhere_to_be(3);", "the call 'nowhere_to_be(..)' in"),
        ("a path to nothing known", "\n    wherever::it::is(3);", "the call 'wherever::it::is(..)' in"),
        ("a method of no type", "\n    x.nowhere_to_be(3);", "the call '.nowhere_to_be(..)' in"),
        ("a function of numbers that is not known", "\n    u32::nowhere(3);", "the call 'u32::nowhere(..)' in"),
        ("a macro", "\n    repeat!(7);", "can't read the macro 'repeat!'"),
        ("a type behind a name", "\n    x.into_list::<Vec>();", "can't read '::<'"),
        ("a call of nothing known in the macro that is known", "\n    matches!(nowhere_to_be(3), 7);", "the call 'nowhere_to_be(..)' in"),
        ("a call of nothing known in a closure", "\n    x.map(|n| nowhere_to_be(n));", "the call 'nowhere_to_be(..)' in"),
        ("a function in a function", "\n    fn inner() { while i < 7 {} }", "can't read 'fn' in"),
        ("a use in a function", "\n    use crate::x;", "can't read 'use' in"),
        ("a call of an element", "\n    x[3](7);", "can't read a call of what is no name"),
        ("a block as a head", "\n    while { i < 7 } {}", "can't read the head of a 'while'"),
        ("a match as a head", "\n    while match i { _ => true } {}", "can't read 'match' in the head of a 'while'"),
        ("a bracket of another kind", "\n    f(3];", "can't read a ']' that closes another bracket"),
        ("a strange sign", "\n    let λ = 3;", "can't read the sign 'λ'"),
    ]:
        yield Case(f"unread: {title}", into(victim, code), said)
    for title, code, said in [
        ("a loop in a constant", "\nconst N: usize = { let mut i = 0; while i < 3 { i += 1; } i };\n", "can't read 'while' in the constant 'N'"),
        ("a call in a constant", "\nconst N: usize = counted(3);\n", "can't read the call 'counted(..)' in a constant"),
        ("a macro that is made", "\nmacro_rules! x { () => { while true {} } }\n", "can't read what begins with 'macro_rules'"),
        ("a macro outside of functions", "\nmade!{ while true {} }\n", "can't read what begins with 'made'"),
        ("a module in braces", "\nmod m { fn f() { while true {} } }\n", "can't read '{' where ';' was to be"),
        ("all names of a module", "\nuse base::*;\n", "can't read '*' where a name was to be"),
        ("an attribute", "\n#[path = \"x.rt\"]\nmod m;\n", "can't read an attribute"),
        ("another unsafe attribute", "\n#[unsafe(naked)]\nfn f() {}\n", "can't read an attribute"),
        ("a derive that may have loops", "\n#[derive(Clone, Copy, Hash)]\nstruct New { n: [u8; 7] }\n", "can't read an attribute"),
        ("a function of C", '\nextern "C" {\n    fn f();\n}\n', "can't read '{' where 'fn' was to be"),
        ("a pointer to a function", "\nfn f(g: fn(u8) -> u8) {}\n", "can't read 'fn' in the parameters of 'f'"),
        ("an attribute of the whole file behind an item", "\n#![tactic(auto)]\n", "can't read '!' where a bracket was to be"),
        ("a trait's functions", "\nimpl A for B { fn f() { while true {} } }\n", "can't read 'for' in the head of an 'impl'"),
        ("a function of a Model", "\nimpl Model for B { ghost view = { λ b. b }; fn f() { while true {} } }\n", "can't read 'fn' in an 'impl Model'"),
        ("a contract that does not end", "\nfn f()\n    ensures { λ r. { }\n", "can't read a contract that does not end"),
        ("braces in comments of two contracts",
         "\nfn f()\n    ensures { a -- {\n    }\n{\n    while true {}\n}\n\nfn g()\n    ensures { b -- }\n    }\n{\n}\n",
         "can't read a comment or a text in a contract"),
        ("a brace in a text of a contract", "\nfn f()\n    ensures { a \"}\" }\n{\n}\n", "can't read a comment or a text in a contract"),
        ("a module without a file", "\nmod not_there;\n", "there is no such file"),
    ]:
        yield Case(f"unread: {title}", lambda tree, code=code: tree.append(root, code), said)
    yield Case("unread: another attribute of the whole file", lambda tree: tree.write(root, "#![allow(x)]\n" + tree.read(root)), "can't read an attribute")


def trees_without_fault(library, page):
    """Words that look like loops or calls, and other blanks: all of these pass."""
    victim = first((f for f in library.functions if not f.loops), "function without a loop")
    looping = first((f for f in library.functions if f.loops and " " in f.loops[0].head), "loop with a blank in its head")
    root = library.crates[LIBRARY].file
    yield Case("the tree as it is", lambda tree: None, None)
    yield Case("words in comments", into(victim, "\n    // while i < 7 { f(3) }\n    /* for x in 0..7 { /* loop { */ } */\n    /// loop {}"), None)
    yield Case("words in texts", into(victim, '\n    let t = b"while i < 7 { f(3) } \\" loop {";\n    let u = br#"for x in 0..7 {"#;'), None)
    yield Case("words in names", into(victim, "\n    let for_guest = while_x + loop2 + fore + awhile + x.loop_count;"), None)
    contract = "\n    requires { while loop { for' } f(3) }\n    ensures named { «newly».now' ≡ loop }\n"
    yield Case("words in a contract", lambda tree: tree.append(root, "\nfn newly(n: u8) -> u8" + contract + "{\n    n\n}\n"), None)
    yield Case("words in a 'ghost use'", lambda tree: tree.append(root, "\nghost use Rattle.std.specs.Prelude.{while, loop, for'};\n"), None)
    yield Case("what is known of the standard library", into(victim, "\n    std::cmp::min(3, 4);\n    x.wrapping_sub(4).to_be_bytes();\n    x.as_chunks::<2>();"), None)
    yield Case("a Model", lambda tree: tree.append(root, "\nimpl Model for New {\n    ghost Value = { while };\n    ghost view = { λ n. n };\n}\n"), None)
    yield Case("a bracket that opens no call", into(victim, "\n    if (a) == (b) {}\n    (c) + match (d) { (e) => return (f), };"), None)
    head = looping.loops[0].head
    yield Case("a head over several lines", change_head(looping, looping.loops[0], head.replace(" ", " // at\n            ")), None)
    row = first((row for row in page.loops if code_in(row.cells["loop"]) == [head]), "row of that loop")
    yield Case("other blanks in the page", with_cell(row, "loop", "`" + head.replace(" ", "   ") + "`"), None)


def outcome(case, tree):
    """Whether a case comes out right, and what the script says."""
    case.edit(tree)
    if case.said and not tree.is_changed():
        tree.restore()
        return False, "nothing is changed by it"
    run = subprocess.run([sys.executable, "-B", SCRIPT, tree.folder], capture_output=True, text=True, check=False)
    tree.restore()
    if case.said is None:
        return run.returncode == 0 and run.stdout.startswith(f"{PAGE}: "), run.stdout + run.stderr
    words = (case.said,) if isinstance(case.said, str) else case.said
    is_named = any(all(word in line for word in words) for line in run.stdout.splitlines())
    return run.returncode == 1 and is_named, run.stdout + run.stderr


def outcomes(cases, root):
    with tempfile.TemporaryDirectory(prefix="check-loops-") as folder:
        tree = Tree(folder, root)
        return [(case, *outcome(case, tree)) for case in cases]


def self_test(root):
    comparison = Comparison(root)
    if comparison.faults:
        print("self-test: the tree itself has faults, so none that is put into it can be told from them:")
        return check(root)
    library, page = comparison.library, comparison.page
    cases = [*new_loops(library), *new_places(library), *changed_loops(library), *changed_page(page), *new_recursions(library),
             *new_calls(library), *unread_things(library), *trees_without_fault(library, page)]
    workers = os.cpu_count() or 1
    with ThreadPoolExecutor(workers) as pool:
        done = [result for part in pool.map(lambda at: outcomes(cases[at::workers], root), range(workers)) for result in part]
    for case, is_right, said in done:
        if not is_right:
            print(f"self-test: {'MISSED' if case.said else 'REFUSED'}: {case.title}\n  wanted: {case.said}\n  said: {said}")
    faults = [is_right for case, is_right, _ in done if case.said]
    passing = [is_right for case, is_right, _ in done if not case.said]
    print(f"self-test: {sum(faults)} of {len(faults)} faults caught, {sum(passing)} of {len(passing)} trees without a fault passed")
    return 0 if all(faults) and all(passing) else 1
