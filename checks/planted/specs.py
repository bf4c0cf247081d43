# SPDX-License-Identifier: Apache-2.0 OR MIT
"""Computes definitions out of specs/*.antt, on closed values and with no prover, for wrong_tables.py and wrong_laws.py.

It reads the part of the language in which tables, facts and clauses are written: equations by cases, records, lists, λ,
if. A clause is computed as a Bool. `→` is what follows, `×` both, `≡` being the same, ⊥ false; what holds for every
paper is for all of PAPERS. This is a second reading of that language and proves nothing. It says which plants a law
should refuse, and the check says whether it does.
"""
import functools
import os
import re

PAPERS = range(1, 4)
TOKEN = re.compile(r'\s+|--[^\n]*|"([^"]*)"|([A-Za-z_][\w\']*(?:\.[A-Za-z_0-9][\w\']*)*)|(\d+)'
                   r'|(&&|\|\||\+\+|==|[λ∷→×≡≤<*/%⊥(){}\[\];=.:+-])')
# how tightly each binds, and whether it goes to the right
LEVELS = {"→": (0, 1), "×": (1, 1), "||": (2, 1), "&&": (3, 1), "≡": (4, 0), "≤": (4, 0), "<": (4, 0), "==": (4, 0),
          "++": (5, 1), "∷": (5, 1), "+": (6, 0), "-": (6, 0), "*": (7, 0), "/": (7, 0), "%": (7, 0)}
PYTHON = {"||": "or", "&&": "and", "×": "and", "≡": "==", "==": "==", "≤": "<=", "<": "<",
          "++": "+", "+": "+", "*": "*", "/": "//", "%": "%"}
ENDS = {"see", "adds", "then", "else", "in"}


class Unread(Exception):
    """What this doesn't read of the language."""


def tokens(text):
    at, found = 0, []
    text = text.replace("ℕ", "NAT").replace("◌", "")
    while at < len(text):
        match = TOKEN.match(text, at)
        if not match:
            raise Unread(text[at:at + 40])
        at = match.end()
        if match[1] is not None:
            found.append(("text", match[1]))
        elif match[2]:
            found.append(("word", match[2]))
        elif match[3]:
            found.append(("number", match[3]))
        elif match[4]:
            found.append(("sign", match[4]))
    return found


def arity(f):
    return f.__code__.co_argcount if type(f) is not functools.partial else arity(f.func) - len(f.args)


def applied(f, *args):
    """A function of this language to some of its arguments, or to more than it names."""
    while args:
        n = arity(f)
        if len(args) == n:
            return f(*args)
        if len(args) < n:
            return functools.partial(f, *args)
        f, args = f(*args[:n]), args[n:]
    return f


def each(f, xs):
    """What the function gives of each."""
    return map(f, xs) if arity(f) == 1 else (applied(f, x) for x in xs)


BUILT_IN = {
    "list_any": lambda f, xs: any(each(f, xs)),
    "list_all": lambda f, xs: all(each(f, xs)),
    "All": lambda f, xs: all(each(f, xs)),
    "map": lambda f, xs: tuple(each(f, xs)),
    "filter": lambda f, xs: tuple(x for x, stays in zip(xs, each(f, xs)) if stays),
    "count_by": lambda f, xs: sum(map(bool, each(f, xs))),
    "flat_map": lambda f, xs: tuple(y for ys in each(f, xs) for y in ys),
    "unwrap_or": lambda o, a: o[1] if o[0] == "Some" else a,
    "is_some": lambda o: o[0] == "Some",
    "length": lambda xs: len(xs),
    "drop": lambda n, xs: xs[n:],
    "not": lambda b: not b,
    "not_": lambda b: not b,
    "PAPERS": PAPERS,
    "IsTrue": lambda b: b,
    "IsFalse": lambda b: not b,
    "nat_le": lambda a, b: a <= b,
    "nat_lt": lambda a, b: a < b,
    "codes": lambda text: tuple(text.encode()),
}
CONSTANTS = {"true": "True", "false": "False", "UNIT": "True", "tt": "()"}
MEMO = {}


class History(tuple):
    """A whole history, about which the same is asked again and again."""
    __hash__ = object.__hash__

    def __eq__(self, other):
        return self is other


class Module:
    """One file of specs: its definitions, made Python one by one as they are asked for."""

    def __init__(self, specs, path, file, text):
        self.specs, self.path, self.file = specs, path, file
        self.equations, self.clauses, self.variants = {}, {}, set()
        self.names, self.aliases, self.infix, self.made = {}, {}, {"see", "adds", "breaks"}, {}
        items = re.split(r"\n(?=[^\s})])", re.sub(r"(?m)^\s*--.*\n", "", text.replace("Unit {0}", "UNIT")))
        for item in items:
            self.take(item)

    def take(self, item):
        if item.startswith("use "):
            named = re.match(r"use Rattle\.(\S+?)\.\{(.*)\}", item, re.S)
            whole = re.match(r"use Rattle\.(\S+) as (\w+)", item)
            if named:
                self.names.update({name.strip().replace("◌", ""): named[1] for name in named[2].split(",")})
            elif whole:
                self.aliases[whole[2]] = whole[1]
        elif item.startswith("pub data"):
            self.variants.update(re.findall(r"(?m)^  (\w+) :", item))
        elif item.startswith("pub record"):
            head = re.match(r"pub record (\w+)((?: \([^)]*\))*) : Type 0 where", item)
            params = re.findall(r"\((\w+(?: \w+)*) :", head[2])
            self.clauses[head[1]] = (" ".join(params).split(), re.split(r"(?m)^  pub \w+ :", item)[1:])
        elif not item.startswith(("abbrev", "unfoldable", "infix", "(")) and "=" in item:
            first, second = item.split(None, 2)[:2]
            name = second if second in self.infix else first
            self.equations.setdefault(name, []).append(item)

    def equations_of(self, name):
        """The words of a definition's equations, its name first."""
        read = [tokens(item) for item in self.equations[name]]
        return [[found[1], found[0], *found[2:]] if name in self.infix else found for found in read]

    # ---- names

    def resolve(self, name):
        """What a name means here: code that gives it, and how many arguments it takes where it is a function."""
        if name in self.equations or name in self.clauses:
            return self, name
        if name in self.names:
            return self.specs.module(self.names[name]), name
        return None, name

    def takes(self, name):
        """How many arguments a definition names."""
        if name in self.clauses:
            return len(self.clauses[name][0])
        return len(Writer(self, name).patterns(self.equations_of(name)[0])[0])

    def get(self, name):
        """A definition as a value: a function, or what it comes to where it has no argument."""
        if name not in self.made:
            writer = Writer(self, name)
            space = {"applied": applied, **BUILT_IN}
            exec(writer.function(), space)  # pylint: disable=exec-used
            made = space["made"]
            for code, (module, used) in writer.used.items():
                space[code] = module.later(used, space, code)
            if self.path == "cr_conference.Conference" and name in CONFERENCES:
                made = made_once(made)
            elif (self.path, name) in REMEMBERED or self.path == "cr_base.HistoryFacts":
                made = remembered(made)
            self.made[name] = made if arity(made) else made()
        return self.made[name]

    def later(self, name, space, code):
        """A function that is made when it is called first, and then stands in its own place;
        a value without arguments at once."""
        n = self.takes(name)
        if n == 0 or name in self.made:
            return self.get(name)

        def first(*args):
            space[code] = self.get(name)
            return space[code](*args)

        args = ", ".join(f"a{i}" for i in range(n))
        return eval(f"lambda {args}: first({args})", {"first": first})  # pylint: disable=eval-used


# what is asked of a whole history again and again
WHO = ("serves", "handles", "oversees", "leads", "discusses", "is_in_programme", "appears", "each_told")
REMEMBERED = {("cr_bounds.ShownTo", name) for name in WHO} | {("cr_policy.View", "view")}


# what has the views, and the laws of them
VIEWS = ("cr_policy", "cr_bounds", "cr_conference", "cr_permissions")


def home(top, file):
    """Which of these crates has a file: `specs/ShownTo.antt`."""
    return next(crate for crate in VIEWS if os.path.exists(os.path.join(top, "crates", crate, file)))


CONFERENCES = {"before_bidding", "in_bidding", "in_reviewing", "in_discussion", "at_notification", "at_close"}


def made_once(f):
    """The function that gives a whole history, the same one for the same arguments."""
    def given(*args):
        return kept(f, repr(args), args, History)

    names = f.__code__.co_varnames[:f.__code__.co_argcount]
    return eval(f"lambda {', '.join(names)}: given({', '.join(names)})", {"given": given})  # pylint: disable=eval-used


def remembered(f):
    """The function with its answers about whole histories kept; of `each_told` where nothing stands before."""
    n = f.__code__.co_argcount
    if n == 5:
        return lambda u, H, part, before, after: f(u, H, part, before, after) if before else kept(
            f, (u, H, part.func, part.args), (u, H, part, before, after))
    if n == 3:
        return lambda a, b, c: (
            kept(f, (a, b, c), (a, b, c)) if isinstance(c, History) and not isinstance(a, functools.partial)
            else f(a, b, c))
    if n == 2:
        return lambda a, b: kept(f, (a, b), (a, b)) if isinstance(b, History) else f(a, b)
    return (lambda a: kept(f, a, (a,)) if isinstance(a, History) else f(a)) if n == 1 else f


def kept(f, key, args, made=lambda answer: answer):
    answers = MEMO.setdefault(f, {})
    if key not in answers:
        answers[key] = made(f(*args))
    return answers[key]


class Specs:
    """The specs of cr_base, cr_policy and the crates of laws on it as they stand, or with other texts in some files;
    what these don't touch is shared."""

    def __init__(self, top, changed=None, plain=None):
        self.top, self.changed, self.plain, self.modules, self.touched = top, changed or {}, plain, {}, {}

    def is_touched(self, module):
        if module.file not in self.touched:
            named = [self.plain.module(path) for path in {*module.names.values(), *module.aliases.values()}]
            self.touched[module.file] = (
                module.file in self.changed or any(self.is_touched(below) for below in named if below))
        return self.touched[module.file]

    def module(self, path):
        """A module by its path in a `use`: `cr_base.specs.History`; None for the library's and for the code's types."""
        match = re.match(r"(cr_\w+)\.specs\.(\w+)$", path)
        if not match:
            return None
        name = f"{match[1]}.{match[2]}"
        if name not in self.modules:
            file = f"crates/{match[1]}/specs/{match[2]}.antt"
            if self.plain and not self.is_touched(self.plain.module(path)):
                self.modules[name] = self.plain.module(path)
                return self.modules[name]
            text = self.changed.get(file)
            if text is None:
                with open(os.path.join(self.top, file), encoding="utf-8") as opened:
                    text = opened.read()
            self.modules[name] = Module(self, name, file, text)
        return self.modules[name]

    def get(self, module, name):
        return self.module(module).get(name)


class Writer:
    """Writes one definition as a Python function."""

    def __init__(self, module, name):
        self.module, self.name, self.bound, self.at, self.found, self.used = module, name, set(), 0, [], {}

    def function(self):
        if self.name in self.module.clauses:
            params, fields = self.module.clauses[self.name]
            self.bound = set(params)
            parts = []
            for field in fields:
                self.found, self.at = tokens(field), 0
                parts.append(self.clause())
            return f"def made({', '.join(params)}):\n    return {' and '.join(parts)}\n"
        equations = self.module.equations_of(self.name)
        heads = [self.patterns(equation) for equation in equations]
        n = len(heads[0][0])
        table, lines = [], [f"def made({', '.join(f'a{i}' for i in range(n))}):"]
        for patterns, rest in heads:
            self.bound, tests, binds = set(), [], []
            for i, pattern in enumerate(patterns):
                self.match(pattern, f"a{i}", tests, binds)
            self.bound = {name for name, _ in binds}
            self.found, self.at = rest, 0
            body = self.clause()
            if self.at != len(self.found):
                raise Unread(f"{self.module.path}.{self.name}: {self.found[self.at:self.at + 5]}")
            if n == 1 and not binds and len(tests) == 1 and tests[0].startswith("a0[0] ==") and "(" not in body:
                table.append(f"{tests[0].split()[-1]}: {body}")
            lines.append(f"    if {' and '.join(tests) or 'True'}:")
            lines += [f"        {safe(name)} = {value}" for name, value in binds]
            lines.append(f"        return {body}")
        lines.append(f"    raise KeyError({self.name!r})")
        if len(table) == len(equations):
            return f"table = {{{', '.join(table)}}}\ndef made(a0):\n    return table[a0[0]]\n"
        return "\n".join(lines)

    # ---- patterns

    def patterns(self, equation):
        """The patterns of an equation, and what stands behind its `=`."""
        self.found, self.at = equation, 1
        patterns = []
        while self.peek() != ("sign", "="):
            patterns.append(self.pattern_atom())
        return patterns, equation[self.at + 1:]

    def pattern_atom(self):
        kind, word = self.next()
        if (kind, word) == ("sign", "("):
            inner = self.pattern()
            self.expect(")")
            return inner
        if (kind, word) == ("sign", "["):
            self.expect("]")
            return ("nil",)
        if (kind, word) == ("sign", "{"):
            raise Unread("an implicit argument")
        return ("word", word) if kind == "word" else ("number", word)

    def pattern(self):
        first = self.pattern_atom()
        args = []
        while self.peek() not in (("sign", ")"), ("sign", "∷")):
            args.append(self.pattern_atom())
        if args:
            first = ("variant", first[1], args)
        if self.peek() == ("sign", "∷"):
            self.next()
            return ("cons", first, self.pattern())
        return first

    def match(self, pattern, value, tests, binds):
        if pattern[0] == "nil":
            tests.append(f"not {value}")
        elif pattern[0] == "cons":
            tests.append(f"{value}")
            self.match(pattern[1], f"{value}[0]", tests, binds)
            self.match(pattern[2], f"{value}[1:]", tests, binds)
        elif pattern[0] == "variant":
            tests.append(f"{value}[0] == {pattern[1].split('.')[-1]!r}")
            for i, part in enumerate(pattern[2]):
                self.match(part, f"{value}[{i + 1}]", tests, binds)
        elif pattern[0] == "number":
            tests.append(f"{value} == {pattern[1]}")
        elif pattern[1] in CONSTANTS:
            tests.append(f"{value} is {CONSTANTS[pattern[1]]}")
        elif self.is_variant(pattern[1]):
            tests.append(f"{value}[0] == {pattern[1].split('.')[-1]!r}")
        elif pattern[1] != "_":
            binds.append((pattern[1], value))

    def is_variant(self, word):
        if "." in word:
            return word.split(".")[0] in self.module.aliases
        is_imported = word in ("Some", "None", "Ok", "Err") or "TheVariants" in self.module.names.get(word, "")
        return (word[0].isupper() and is_imported) or word in self.module.variants

    # ---- expressions

    def peek(self):
        return self.found[self.at] if self.at < len(self.found) else (None, None)

    def next(self):
        self.at += 1
        return self.found[self.at - 1]

    def expect(self, sign):
        if self.next() != ("sign", sign):
            raise Unread(f"{self.module.path}.{self.name}: {sign} for {self.found[self.at - 1:self.at + 5]}")

    def binders(self):
        """The names of `(u p : T) (H : T) →` ahead, or None where none stand there."""
        at, names = self.at, []
        while self.found[at:at + 1] == [("sign", "(")]:
            end, own = at + 1, []
            while self.found[end][0] == "word":
                own.append(self.found[end][1])
                end += 1
            if self.found[end] != ("sign", ":"):
                break
            while self.found[end] != ("sign", ")"):
                end += 1
            names += own
            at = end + 1
        if names and self.found[at] == ("sign", "→"):
            self.at = at + 1
            return names
        return None

    def clause(self):
        """An expression, or a clause: one for every paper is computed for all of them,
        and other names ahead are parameters."""
        names = self.binders()
        if names is None:
            return self.expression(0)
        before = set(self.bound)
        self.bound |= set(names)
        body = self.clause()
        self.bound = before
        if names == ["p"]:
            return f"all({body} for p in PAPERS)"
        return f"(lambda {', '.join(safe(name) for name in names)}: {body})"

    def expression(self, level):
        left = self.operand()
        while True:
            kind, sign = self.peek()
            if kind == "word" and sign in self.module.infix:
                at, right_first = 7, 0
            elif kind == "sign" and sign in LEVELS:
                at, right_first = LEVELS[sign]
            else:
                return left
            if at < level:
                return left
            self.next()
            right = self.expression(at + 1 - right_first) if sign != "→" else self.clause()
            if sign == "→":
                left = f"(not {left} or {right})"
            elif sign == "&&" and "(" not in right:
                left = f"({right} and {left})"
            elif sign == "∷":
                left = f"(({left},) + {right})"
            elif sign in PYTHON:
                left = f"({left} {PYTHON[sign]} {right})"
            elif sign == "-":
                left = f"max(0, {left} - {right})"
            else:
                left = self.call(sign, [left, right])

    def operand(self):
        kind, word = self.peek()
        if (kind, word) == ("sign", "λ"):
            return self.lambda_()
        if (kind, word) == ("word", "if"):
            self.next()
            test = self.expression(0)
            self.word("then")
            yes = self.expression(0)
            self.word("else")
            return f"({yes} if {test} else {self.expression(0)})"
        if (kind, word) == ("word", "let"):
            return self.let()
        head = self.peek()
        first = self.atom()
        args = []
        while self.begins_atom():
            args.append(self.atom())
        if not args:
            return self.value(first)
        if head[0] == "word" and isinstance(first, tuple):
            return self.call(first[1], args)
        return f"applied({self.value(first)}, {', '.join(args)})"

    def begins_atom(self):
        kind, word = self.peek()
        if kind == "word":
            return word not in self.module.infix | ENDS
        return kind in ("number", "text") or (kind == "sign" and word in "([⊥")

    def word(self, word):
        if self.next() != ("word", word):
            raise Unread(f"{self.module.path}.{self.name}: {word}")

    def atom(self):
        """Python code, or for a name at the head of a call the name itself."""
        kind, word = self.next()
        if kind == "number":
            return word
        if kind == "text":
            return repr(word)
        if kind == "word" and word == "record":
            return self.record()
        if kind == "word":
            return ("name", word) if self.begins_atom() else self.value(("name", word))
        if word == "⊥":
            return "False"
        if word == "[":
            self.expect("]")
            return "()"
        if word == "(":
            inner = self.clause()
            self.expect(")")
            while (self.peek() == ("sign", ".") and self.at + 1 < len(self.found)
                   and self.found[self.at + 1][0] == "word"):
                self.next()
                for field in self.next()[1].split("."):
                    inner = f"{inner}[{field!r}]"
            return inner
        raise Unread(f"{self.module.path}.{self.name}: {word}")

    def record(self):
        base = None
        if self.peek() != ("sign", "{"):
            base = self.value(self.atom_alone())
        self.expect("{")
        fields = []
        while self.peek() != ("sign", "}"):
            name = self.next()[1]
            self.expect("=")
            fields.append(f"{name!r}: {self.expression(0)}")
            if self.peek() == ("sign", ";"):
                self.next()
        self.expect("}")
        return f"{{{'**' + base + ', ' if base else ''}{', '.join(fields)}}}"

    def atom_alone(self):
        kind, word = self.peek()
        if kind == "word":
            self.next()
            return ("name", word)
        return self.atom()

    def lambda_(self):
        self.next()
        names = []
        while self.peek() != ("sign", "."):
            if self.peek() == ("sign", "("):
                self.next()
                while self.peek()[0] == "word":
                    names.append(self.next()[1])
                while self.next() != ("sign", ")"):
                    pass
            else:
                names.append(self.next()[1])
        self.next()
        before = set(self.bound)
        self.bound |= set(names)
        body = self.clause()
        self.bound = before
        return f"(lambda {', '.join(safe(name) for name in names)}: {body})"

    def let(self):
        self.next()
        name = self.next()[1]
        self.expect("=")
        given = self.expression(0)
        self.word("in")
        before = set(self.bound)
        self.bound.add(name)
        body = self.clause()
        self.bound = before
        return f"(lambda {safe(name)}: {body})({given})"

    def value(self, code):
        return self.call(code[1], []) if isinstance(code, tuple) else code

    def call(self, word, args):
        """A name to its arguments."""
        args = [self.value(arg) for arg in args]
        first, *fields = word.split(".")
        if first in self.bound:
            code = safe(first) + "".join(f"[{field!r}]" for field in fields)
            return f"applied({code}, {', '.join(args)})" if args else code
        if self.is_variant(word):
            return f"({', '.join([repr(word.split('.')[-1]), *args])},)"
        if word in CONSTANTS:
            return CONSTANTS[word]
        if word in BUILT_IN and word not in self.module.equations:
            takes, code = arity(BUILT_IN[word]), ("not_" if word == "not" else word)
        else:
            module, name = self.module.resolve(first)
            if module is None:
                raise Unread(f"{self.module.path}.{self.name}: {word}")
            takes, code = module.takes(name), f"g_{safe(name)}"
            self.used[code] = (module, name)
        code += "".join(f"[{field!r}]" for field in fields)
        if args and not fields and len(args) == takes:
            return f"{code}({', '.join(args)})"
        return f"applied({code}, {', '.join(args)})" if args else code


def safe(name):
    """A name that Python takes."""
    return name.replace("'", "_") + "_" if name in ("is", "not", "in", "from", "as") or "'" in name else name
