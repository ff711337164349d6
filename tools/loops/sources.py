"""A source of Rattle, read: what its modules declare, the loops of each function and its calls. What can't be read is told."""
import re
from collections import namedtuple

LOOP_WORDS = ("while", "loop", "for")
# Words that may stand before a bracket that opens no call.
WORDS_OF_EXPRESSIONS = {"as", "break", "else", "if", "in", "let", "match", "mut", "ref", "return"} | set(LOOP_WORDS)
# A body that has one of these would have to be read otherwise, and today none has.
WORDS_UNREAD_IN_BODIES = {"async", "dyn", "enum", "extern", "fn", "ghost", "impl", "macro_rules", "mod", "move", "pub", "static", "struct",
                          "trait", "type", "unsafe", "use", "yield"}
WORDS_UNREAD_IN_TYPES = {"dyn", "fn", "ghost", "impl", "unsafe"} | set(LOOP_WORDS)
WORDS_UNREAD_IN_HEADS = {"else", "if", "match"} | set(LOOP_WORDS)
# `tactic` is for the prover alone.
ATTRIBUTES = {"repr", "inline", "tactic"}
# Another, just as it stands here. What is derived of these has no loop: arrays of four and of six bytes are compared at once.
WHOLE_ATTRIBUTES = {"unsafe(no_mangle)"}
DERIVED = {"Clone", "Copy", "Debug", "PartialEq", "Eq"}
# Of a whole file one is known.
ATTRIBUTE_OF_A_FILE = "tactic(auto)"
# The macro that is known: a match of what it is handed, with no loop.
KNOWN_MACRO = "matches"
# Methods of the standard library that go over all that they are handed: they have no loop in their text, and each call is
# counted as one.
WALKS = ("copy_from_slice", "fill", "all")


class Unreadable(Exception):
    """Something that this script does not understand, and so must not pass over."""

    def __init__(self, line, what):
        super().__init__(what)
        self.line = line
        self.what = what


# ---- A source as tokens ----

Token = namedtuple("Token", "kind text line start end")

TOKEN = re.compile(
    r"""(?P<blank>\s+|//[^\n]*)
    |(?P<string>b?"(?:[^"\\]|\\.)*"|b?r(?P<hashes>\#*)".*?"(?P=hashes))
    |(?P<letter>b?'(?:[^'\\\n]|\\[^\n]+?)')
    |(?P<label>'[A-Za-z_]\w*)
    |(?P<number>\d\w*(?:\.\d\w*)?)
    |(?P<name>[A-Za-z_]\w*)
    |(?P<symbol>::|->|=>|==|!=|<=|>=|&&|\|\||\.\.=|\.\.|[-+*/%^!&|=<>@.,;:\#?(){}\[\]])""",
    re.X | re.S | re.A,
)
GHOST_USE = re.compile(r"ghost\s+use\b[^;]*;")
CONTRACT = re.compile(r"(?:(?:requires|ensures)(?:\s+\w+)?|ghost(?:\s+\w+\s*=)?)\s*\{", re.A)
# In the logic's language: a comment, a text, or a brace as a letter.
HIDES_BRACES = re.compile(r"""--|\{-|"|'[{}]'""")


def behind_comment(text, at):
    """The place behind the comment of several lines that starts at `at`; one may stand in another."""
    depth, start = 0, at
    while True:
        mark = re.compile(r"/\*|\*/").search(text, at)
        if not mark:
            raise Unreadable(text.count("\n", 0, start) + 1, "a comment that does not end")
        depth += 1 if mark[0] == "/*" else -1
        at = mark.end()
        if depth == 0:
            return at


def behind_contract(text, at):
    """The place behind the brace that closes the one right before `at`. What stands between is a term of the logic."""
    depth, line = 1, text.count("\n", 0, at) + 1
    for mark in re.compile(r"[{}]").finditer(text, at):
        depth += 1 if mark[0] == "{" else -1
        if depth == 0:
            if HIDES_BRACES.search(text, at, mark.end()):
                raise Unreadable(line, "a comment or a text in a contract")
            return mark.end()
    raise Unreadable(line, "a contract that does not end")


def tokens_of(text):
    """The tokens of a source, without comments and `ghost use` lines; a contract is one token."""
    tokens, at, line = [], 0, 1
    while at < len(text):
        kind, skipped = "", None
        match = TOKEN.match(text, at)
        if text.startswith("/*", at):
            end = behind_comment(text, at)
        elif not match:
            raise Unreadable(line, f"the sign '{text[at]}'")
        else:
            kind, end = match.lastgroup, match.end()
            if kind == "name" and match[0] == "ghost":
                skipped = GHOST_USE.match(text, at)
            opened = CONTRACT.match(text, at) if kind == "name" else None
            if skipped:
                end = skipped.end()
            elif opened:
                kind, end = "contract", behind_contract(text, opened.end())
        if kind not in ("", "blank") and not skipped:
            tokens.append(Token(kind, text[at:end], line, at, end))
        line += text.count("\n", at, end)
        at = end
    return tokens


def words_of(text):
    """A loop's head as its words, so that blanks and ends of lines make no difference."""
    try:
        return tuple(token.text for token in tokens_of(text))
    except Unreadable:
        return (text,)


# ---- What a source declares ----

Loop = namedtuple("Loop", "head words names line start end")
Call = namedtuple("Call", "path is_method line")


class Function:
    def __init__(self, module, owner, name, line):
        self.module, self.owner, self.name, self.line = module, owner, name, line
        self.type = None
        self.is_exported = self.takes_self = False
        # Its loops, and each call of a method that walks, which is listed as a loop is; the name of the cycle that it says it is in.
        self.loops, self.walks, self.calls, self.callees = [], [], [], set()
        self.cycle_name = None
        self.body_start = 0

    @property
    def file(self):
        return self.module.file

    @property
    def title(self):
        """Its name as the page has it: `f`, or `Type::f`."""
        return f"{self.owner}::{self.name}" if self.owner else self.name

    @property
    def place(self):
        """Where its proof stands below the crate's proofs/: module, type, name."""
        return self.module.path + ((self.owner,) if self.owner else ()) + (self.name,)


class Type:
    def __init__(self, name):
        self.name, self.variants, self.functions = name, set(), {}
        self.is_called_to_be_made = False


class Module:
    def __init__(self, crate, path, file, parent):
        self.crate, self.path, self.file, self.parent = crate, path, file, parent
        self.functions, self.types, self.modules = {}, {}, {}
        # A name to the paths that bring it: a module and a function may have one name.
        self.imports = {}
        self.impls, self.calls_in_constants, self.declared = [], [], []

    @property
    def root(self):
        return self.parent.root if self.parent else self

    def all_functions(self):
        yield from self.functions.values()
        for _, functions in self.impls:
            yield from functions
        for module in self.modules.values():
            yield from module.all_functions()

    def all_modules(self):
        yield self
        for module in self.modules.values():
            yield from module.all_modules()


class Cursor:
    """Goes through the tokens of one source."""

    def __init__(self, text):
        self.tokens, self.at = tokens_of(text), 0

    def is_at_end(self):
        return self.at == len(self.tokens)

    def sees(self, *texts):
        seen = [token.text for token in self.tokens[self.at:self.at + len(texts)]]
        return seen == list(texts)

    def take(self, text=None):
        if self.is_at_end():
            raise Unreadable(self.tokens[-1].line if self.tokens else 1, "an end of the file inside of something")
        token = self.tokens[self.at]
        if text is not None and token.text != text:
            raise Unreadable(token.line, f"'{token.text}' where '{text}' was to be")
        self.at += 1
        return token

    def take_name(self):
        token = self.take()
        if token.kind != "name":
            raise Unreadable(token.line, f"'{token.text}' where a name was to be")
        return token

    def takes(self, text):
        if not self.sees(text):
            return False
        self.at += 1
        return True

    def take_bracketed(self):
        """What stands in the brackets that open here, without them."""
        pairs = {"(": ")", "[": "]", "{": "}"}
        start, token = self.at, self.take()
        if token.text not in pairs:
            raise Unreadable(token.line, f"'{token.text}' where a bracket was to be")
        opened = [pairs[token.text]]
        while True:
            token = self.take()
            if token.kind == "contract":
                raise Unreadable(token.line, "a contract that stands before no body")
            if token.kind == "symbol" and token.text in pairs:
                opened.append(pairs[token.text])
            elif token.kind == "symbol" and token.text in pairs.values():
                if opened.pop() != token.text:
                    raise Unreadable(token.line, f"a '{token.text}' that closes another bracket")
                if not opened:
                    return self.tokens[start + 1:self.at - 1]

    def take_until(self, *texts):
        """The tokens before one of `texts` that stands in no brackets, which is left there."""
        start = self.at
        while not any(self.sees(text) for text in texts):
            if self.is_at_end() or self.tokens[self.at].text in ")]}":
                raise Unreadable(self.tokens[start - 1].line, f"what has no '{texts[0]}' at its end")
            if self.tokens[self.at].kind == "contract":
                break
            if self.tokens[self.at].text in ("(", "[", "{"):
                self.take_bracketed()
            else:
                self.at += 1
        return self.tokens[start:self.at]


def refuse(tokens, words, where):
    for token in tokens:
        if token.kind == "name" and token.text in words:
            raise Unreadable(token.line, f"'{token.text}' in {where}")


def read_source(module, text):
    """Puts all that a source declares into its module."""
    cursor = Cursor(text)
    while cursor.sees("#", "!"):
        cursor.take("#")
        cursor.take("!")
        if "".join(token.text for token in cursor.take_bracketed()) != ATTRIBUTE_OF_A_FILE:
            raise Unreadable(cursor.tokens[cursor.at - 1].line, "an attribute that is not known")
    while not cursor.is_at_end():
        attributes = read_attributes(cursor)
        is_public = read_visibility(cursor)
        token = cursor.tokens[cursor.at] if not cursor.is_at_end() else cursor.take()
        if cursor.takes("use"):
            read_use(cursor, module, ())
            cursor.take(";")
        elif cursor.takes("mod"):
            module.declared.append(cursor.take_name())
            cursor.take(";")
        elif cursor.takes("const"):
            read_constant(cursor, module)
        elif cursor.takes("type"):
            read_alias(cursor, module)
        elif cursor.takes("struct"):
            read_struct(cursor, module)
        elif cursor.takes("enum"):
            read_enum(cursor, module)
        elif cursor.takes("impl"):
            read_impl(cursor, module)
        elif cursor.sees("fn") or cursor.sees("extern"):
            function = read_function(cursor, module, None, attributes, is_public)
            if function.name in module.functions:
                raise Unreadable(function.line, f"a second function '{function.name}'")
            module.functions[function.name] = function
        else:
            raise Unreadable(token.line, f"what begins with '{token.text}'")


def read_attributes(cursor):
    """The attributes before an item: each as it stands, and of a cycle its name."""
    found = {}
    while cursor.takes("#"):
        words = [token.text for token in cursor.take_bracketed()]
        whole = "".join(words)
        if words[:2] == ["cycle", "("] and len(words) == 4:
            is_known, found["cycle"] = True, words[2]
        elif words[:2] == ["derive", "("]:
            is_known = set(words[2:-1]) - {","} <= DERIVED
        else:
            is_known, found[whole] = whole in WHOLE_ATTRIBUTES or words[:1] and words[0] in ATTRIBUTES, True
        if not is_known:
            raise Unreadable(cursor.tokens[cursor.at - 1].line, "an attribute that is not known")
    return found


def read_visibility(cursor):
    if not cursor.takes("pub"):
        return False
    if cursor.sees("("):
        cursor.take_bracketed()
    return True


def read_use(cursor, module, before):
    """One path, or several in braces, of a `use`."""
    if cursor.takes("{"):
        while not cursor.takes("}"):
            read_use(cursor, module, before)
            if not cursor.sees("}"):
                cursor.take(",")
        return
    word = cursor.take_name()
    path = before + (word.text,)
    if cursor.takes("::"):
        read_use(cursor, module, path)
        return
    if word.text == "self" and before:
        path = before
    alias = cursor.take_name().text if cursor.takes("as") else path[-1]
    module.imports.setdefault(alias, []).append(path)


def read_constant(cursor, module):
    name = cursor.take_name()
    tokens = cursor.take_until(";")
    cursor.take(";")
    refuse(tokens, WORDS_UNREAD_IN_TYPES, f"the constant '{name.text}'")
    module.calls_in_constants += calls_in(tokens)


def read_alias(cursor, module):
    """A type under another name: a name of its own where it is one of a number or an array."""
    name = cursor.take_name().text
    cursor.take("=")
    tokens = cursor.take_until(";")
    cursor.take(";")
    refuse(tokens, WORDS_UNREAD_IN_TYPES, f"the type '{name}'")
    if all(token.kind == "name" or token.text == "::" for token in tokens):
        module.imports.setdefault(name, []).append(tuple(token.text for token in tokens if token.kind == "name"))


def read_struct(cursor, module):
    new = Type(cursor.take_name().text)
    tokens = cursor.take_until("(", "{", ";")
    new.is_called_to_be_made = cursor.sees("(")
    if not cursor.sees(";"):
        tokens = tokens + cursor.take_bracketed()
    if new.is_called_to_be_made or cursor.sees(";"):
        cursor.take(";")
    refuse(tokens, WORDS_UNREAD_IN_TYPES, f"the struct '{new.name}'")
    module.types[new.name] = new


def read_enum(cursor, module):
    new = Type(cursor.take_name().text)
    tokens = cursor.take_until("{") + cursor.take_bracketed()
    refuse(tokens, WORDS_UNREAD_IN_TYPES, f"the enum '{new.name}'")
    # Every name of it may be a variant's: more than there are is no harm.
    new.variants = {token.text for token in tokens if token.kind == "name"}
    module.types[new.name] = new


def read_impl(cursor, module):
    """The functions of a type, whose name is looked up once all sources are read."""
    path = cursor.take_until("{")
    if [token.text for token in path[:2]] == ["Model", "for"]:
        read_model(cursor)
        return
    cursor.take("{")
    if any(token.kind != "name" and token.text != "::" for token in path):
        raise Unreadable(path[0].line, "an 'impl' of more than a name")
    refuse(path, WORDS_UNREAD_IN_TYPES, "the head of an 'impl'")
    functions = []
    module.impls.append((tuple(token.text for token in path if token.kind == "name"), functions))
    while not cursor.takes("}"):
        attributes = read_attributes(cursor)
        is_public = read_visibility(cursor)
        functions.append(read_function(cursor, module, path[-1].text, attributes, is_public))


def read_model(cursor):
    """How contracts see a type: for the prover alone, so that it holds terms of the logic and nothing that runs."""
    cursor.take("{")
    while not cursor.takes("}"):
        token = cursor.take()
        if token.kind != "contract":
            raise Unreadable(token.line, f"'{token.text}' in an 'impl Model'")
        cursor.take(";")


def read_function(cursor, module, owner, attributes, is_public):
    is_for_c = cursor.takes("extern")
    if is_for_c:
        cursor.take('"C"')
    cursor.take("fn")
    name = cursor.take_name()
    function = Function(module, owner, name.text, name.line)
    # In a library for other crates these words export nothing; in the crate that C links each function with one is taken for exported.
    function.is_exported = "unsafe(no_mangle)" in attributes or (is_for_c and is_public)
    function.cycle_name = attributes.get("cycle")
    before = cursor.take_until("(")
    parameters = cursor.take_bracketed()
    behind = cursor.take_until("{", ";")
    refuse(before + parameters + behind, WORDS_UNREAD_IN_TYPES, f"the parameters of '{name.text}'")
    function.takes_self = any(token.text == "self" for token in parameters[:4])
    while not cursor.is_at_end() and cursor.tokens[cursor.at].kind == "contract":
        cursor.take()
    if not cursor.sees("{"):
        raise Unreadable(name.line, f"the function '{name.text}', which has no body behind its contract")
    function.body_start = cursor.tokens[cursor.at].end
    body = cursor.take_bracketed()
    refuse(body, WORDS_UNREAD_IN_BODIES, f"the body of '{name.text}'")
    function.loops = loops_in(body)
    function.walks = walks_in(body)
    function.calls = calls_in(body)
    return function


def loops_in(body):
    """The loops in the order of the text, each with the names that its proof may give it: its label's; else `loop-` and a variable, or `loop` alone."""
    loops = []
    for at, token in enumerate(body):
        if token.kind != "name" or token.text not in LOOP_WORDS:
            continue
        is_labelled = at >= 2 and body[at - 1].text == ":" and body[at - 2].kind == "label"
        first = body[at - 2] if is_labelled else token
        last = body[head_end(body, at) - 1]
        tokens = [token for token in body if first.start <= token.start < last.end]
        variables = {token.text for token in tokens if token.kind == "name" and token.text not in LOOP_WORDS}
        names = {first.text[1:]} if is_labelled else {"loop"} | {f"loop-{variable}" for variable in variables}
        loops.append(Loop(shown(tokens), tuple(token.text for token in tokens), frozenset(names), first.line, first.start, last.end))
    return loops


def walks_in(body):
    """The calls of a method that walks, each as a loop is: its head is the method's name, and it has no measure."""
    return [Loop(token.text, (token.text,), frozenset(), token.line, token.start, token.end) for at, token in enumerate(body)
            if token.text in WALKS and at and body[at - 1].text == "." and at + 1 < len(body) and body[at + 1].text == "("]


def shown(tokens):
    """The tokens as one line, a blank for all that stands between two."""
    gaps = [" " if before.end < behind.start else "" for before, behind in zip(tokens, tokens[1:])]
    return "".join(token.text + gap for token, gap in zip(tokens, gaps + [""]))


def head_end(body, at):
    """The index of the brace behind a loop's head, which starts at `at`."""
    depth, end = 0, at + 1
    while end < len(body) and (depth > 0 or body[end].text != "{"):
        depth += {"(": 1, "[": 1, ")": -1, "]": -1}.get(body[end].text, 0)
        end += 1
    word, head = body[at], body[at + 1:end]
    refuse(head, WORDS_UNREAD_IN_HEADS, f"the head of a '{word.text}'")
    if end == len(body) or bool(head) == (word.text == "loop") or (head and head[0].text == "<"):
        raise Unreadable(word.line, f"the head of a '{word.text}'")
    return end


def calls_in(tokens):
    """Each name, path or method before a bracket. A pattern, and what makes a value of an enum, look the same."""
    calls = []
    for at, token in enumerate(tokens):
        before = tokens[at - 1] if at else None
        if before is None:
            continue
        is_named = before.kind == "name" and before.text not in WORDS_OF_EXPRESSIONS
        if is_named and token.text == "!" and at + 1 < len(tokens) and tokens[at + 1].text in ("(", "[", "{") and before.text != KNOWN_MACRO:
            raise Unreadable(token.line, f"the macro '{before.text}!'")
        if before.text == "::" and token.text == "<" and not is_one_number(tokens, at):
            raise Unreadable(token.line, "'::<'")
        if token.text != "(":
            continue
        if is_named:
            calls.append(call_before(tokens, at))
        elif at >= 5 and before.text == ">" and tokens[at - 4].text == "::" and is_one_number(tokens, at - 3):
            calls.append(call_before(tokens, at - 4))
        elif before.text in (")", "]", "?") or before.kind in ("number", "string", "letter"):
            raise Unreadable(token.line, f"a call of what is no name: '{before.text}('")
    return calls


def is_one_number(tokens, at):
    """Whether `<N>` stands at `at`, with a number for N."""
    return at + 2 < len(tokens) and tokens[at].text == "<" and tokens[at + 1].kind == "number" and tokens[at + 2].text == ">"


def call_before(tokens, at):
    """The call whose bracket, or whose `::<N>`, stands at `at`."""
    first = at - 1
    while first >= 2 and tokens[first - 1].text == "::" and tokens[first - 2].kind == "name":
        first -= 2
    path = tuple(token.text for token in tokens[first:at] if token.kind == "name")
    before = tokens[first - 1].text if first else ""
    if before == "::" or (before == "." and len(path) > 1):
        raise Unreadable(tokens[at].line, f"the path before '{'::'.join(path)}('")
    return Call(path, before == ".", tokens[first].line)
