"""All crates that what a host links is built on, and which function may come to call which."""
import os

from loops.sources import Function, Module, Type, Unreadable, WALKS, read_source

# The crate that a host in C links, and the one whose functions it exports.
LIBRARY = "host_c"
EXPORTED = "host"

# What the language itself brings: all of it is compiled to code without a loop.
NUMBERS = {"u8", "u16", "u32", "u64", "usize", "i8", "i16", "i32", "i64", "isize", "f32", "f64"}
FUNCTIONS_OF_NUMBERS = {"count_ones", "leading_zeros", "trailing_zeros", "from", "try_from", "from_be_bytes", "from_le_bytes"}
METHODS_OF_THE_LANGUAGE = {
    "len", "is_empty", "count_ones", "wrapping_add", "wrapping_sub", "saturating_add", "saturating_sub", "div_ceil", "min", "swap_bytes", "to_be_bytes",
    # of a slice: parts of it, and what goes over it with no step taken
    "get", "split_at", "as_chunks", "first_chunk", "first_chunk_mut", "iter",
    # of an Option or a Result, and of a bool that makes one; what a closure calls is read where it stands
    "copied", "unwrap_or", "is_some", "is_none", "is_ok", "ok_or", "map", "map_err", "and_then", "then_some",
} | set(WALKS)
# The values of Option and Result.
MADE_BY_THE_LANGUAGE = {"Some", "Ok", "Err"}
# Of the standard library the functions that are known, all without a loop and without a call of another: a call of any other is told.
STANDARD = "std"
FUNCTIONS_OF_STANDARD = {("cmp", "min")}


class Library:
    """All crates that what a host links is built on, as they are read, and who calls whom."""

    def __init__(self, folder):
        self.folder, self.faults, self.crates = folder, [], {}
        for name in crates_of(folder):
            self.read_crate(name, os.path.join(folder, "crates", name, "src"))
        if not self.faults:
            self.join_impls()
            self.functions = [function for root in self.crates.values() for function in root.all_functions()]
            self.methods = {}
            for function in self.functions:
                if function.takes_self:
                    self.methods.setdefault(function.name, []).append(function)
            self.join_calls()
            self.reached = {function: reached_from(function) for function in self.functions}

    def fault(self, file, line, what):
        self.faults.append((file, line, what))

    def read_crate(self, name, source):
        below = f"crates/{name}/src"
        read = set()
        self.crates[name] = self.read_module(source, below, name, (), None, read)
        for folder, _, files in os.walk(source):
            for file in files:
                path = os.path.relpath(os.path.join(folder, file), source)
                if path not in read:
                    self.fault(f"{below}/{path}", 1, "no 'mod' line leads to this file, so its loops are not read")

    def read_module(self, source, below, crate, path, parent, read):
        file = "/".join(path or ("lib",)) + ".rt"
        module = Module(crate, path, f"{below}/{file}", parent)
        read.add(file)
        try:
            with open(os.path.join(source, file), encoding="utf-8") as opened:
                read_source(module, opened.read())
        except OSError:
            self.fault(module.file, 1, "there is no such file")
        except UnicodeDecodeError:
            self.fault(module.file, 1, "tools/check-loops can't read what is no UTF-8")
        except Unreadable as unread:
            self.fault(module.file, unread.line, f"tools/check-loops can't read {unread.what}")
        for name in module.declared:
            module.modules[name.text] = self.read_module(source, below, crate, path + (name.text,), module, read)
        return module

    # -- Names. A name may be a type's or a module's, or a function's: `kind` says which is looked for. --

    def named(self, module, name, kind, seen=frozenset()):
        """What a name means in a module: an item of its own, or what a `use` brings."""
        own = own_item(module, name, kind)
        key = (module, name, kind)
        if own is not None or key in seen:
            return own
        for path in module.imports.get(name, ()):
            found = self.at_path(module, path, kind, seen | {key})
            if found is not None:
                return found
        return None

    def at_path(self, module, path, kind, seen=frozenset()):
        """What a path means that is written in a module."""
        if len(path) == 1:
            found = self.named(module, path[0], kind, seen)
            if found is None and kind == "function" and path[0] in MADE_BY_THE_LANGUAGE:
                return "constructor"
            return self.crates.get(path[0]) if found is None and kind == "type" else found
        place = self.start(module, path[0], seen)
        for at, name in enumerate(path[1:], 1):
            is_last = at == len(path) - 1
            place = self.inside(place, name, kind if is_last else "type", seen)
        return place

    def start(self, module, word, seen):
        if word == "crate":
            return module.root
        if word == "self":
            return module
        if word == "super":
            return module.parent
        if word in NUMBERS:
            return word
        found = self.at_path(module, (word,), "type", seen)
        return () if found is None and word == STANDARD else found

    def inside(self, place, name, kind, seen):
        if isinstance(place, Module):
            return place.parent if name == "super" else self.named(place, name, kind, seen)
        if isinstance(place, Type) and kind == "function":
            return place.functions.get(name) or ("constructor" if name in place.variants else None)
        if isinstance(place, tuple):
            # a path below the standard library, as far as it is followed
            path = place + (name,)
            return ("language" if path in FUNCTIONS_OF_STANDARD else None) if kind == "function" else path
        if place in NUMBERS and kind == "function" and name in FUNCTIONS_OF_NUMBERS:
            return "language"
        return None

    def join_impls(self):
        """Hands each type the functions of its `impl` blocks, wherever they stand."""
        for module in [module for root in self.crates.values() for module in root.all_modules()]:
            for path, functions in module.impls:
                owner = self.at_path(module, path, "type")
                for function in functions:
                    if isinstance(owner, Type):
                        function.owner, function.type = owner.name, owner
                        owner.functions[function.name] = function
                    else:
                        self.fault(module.file, function.line, f"the type '{'::'.join(path)}' of '{function.name}' is not known")

    # -- Calls. --

    def join_calls(self):
        for function in self.functions:
            for call in function.calls:
                callees = self.callees(function, call)
                if callees is None:
                    name = "." + call.path[0] if call.is_method else "::".join(call.path)
                    self.fault(function.file, call.line, f"the call '{name}(..)' in '{function.title}' leads to no function that is known")
                else:
                    function.callees.update(callees)
        for module in [module for root in self.crates.values() for module in root.all_modules()]:
            for call in module.calls_in_constants:
                if self.at_path(module, call.path, "function") != "constructor" or call.is_method:
                    self.fault(module.file, call.line, f"tools/check-loops can't read the call '{'::'.join(call.path)}(..)' in a constant")

    def callees(self, function, call):
        """The functions that a call may lead to; None where it leads to nothing known."""
        if call.is_method:
            # The receiver's type is not worked out: a method of this name of any type may be meant.
            found = self.methods.get(call.path[0])
            return found if found or call.path[0] not in METHODS_OF_THE_LANGUAGE else []
        if call.path[0] == "Self" and function.type:
            found = self.of_self(function.type, call.path[1:])
        else:
            found = self.at_path(function.module, call.path, "function")
        if isinstance(found, Function):
            return [found]
        return [] if found in ("constructor", "language") else None

    def of_self(self, own_type, path):
        if not path:
            return "constructor" if own_type.is_called_to_be_made else None
        return self.inside(own_type, path[0], "function", frozenset()) if len(path) == 1 else None

    # -- What the page has to have. --

    def cycle(self, function):
        """The functions that it calls and that call it, by any way, itself among them; empty where it never comes back."""
        return [other for other in self.functions if other in self.reached[function] and function in self.reached[other]]

    def cycles(self):
        found = []
        for function in self.functions:
            cycle = self.cycle(function)
            if cycle and cycle[0] is function:
                found.append(cycle)
        return found

    def exported(self):
        """The functions that C can call: those of the crate that it links."""
        return [function for function in self.functions if function.is_exported and function.module.crate == LIBRARY]


def own_item(module, name, kind):
    if kind == "type":
        found = module.modules.get(name)
        return found if found is not None else module.types.get(name)
    if name in module.functions:
        return module.functions[name]
    made = module.types.get(name)
    return "constructor" if made is not None and made.is_called_to_be_made else None


def reached_from(function):
    """All functions that a call of this one may come to."""
    reached, waiting = set(), [function]
    while waiting:
        for callee in waiting.pop().callees:
            if callee not in reached:
                reached.add(callee)
                waiting.append(callee)
    return reached


def lines_of_crates(path):
    """Of a list of crates: each name and what it is built on."""
    with open(path, encoding="utf-8") as opened:
        lines = [line.split("#")[0].strip() for line in opened]
    # Behind the name may stand what is made of the crate, as `staticlib`.
    return {line.split(":")[0].split()[0]: line.split(":")[1].split() for line in lines if line}


def crates_of(folder):
    """The names of the crates that the library is built on. All are of this repository: of the kit's libraries just the standard one is used."""
    ours = lines_of_crates(os.path.join(folder, "crates.txt"))
    names = [LIBRARY]
    for name in names:
        if name not in ours:
            raise SystemExit(f"crates.txt: this list has no line for the crate '{name}'")
        names += [other for other in ours[name] if other not in names]
    return names
