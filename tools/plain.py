#!/usr/bin/env python3
"""Plain interpretation of worlds and scripts, after docs/LANGUAGE.md: one node a step, one lookup a send.

usage: plain.py run WORLD < SCRIPT | plain.py check WORLD | plain.py drill N | plain.py rows FILE ...

It shares nothing with the crates, and is an outside reference for their tests and for the examples. `rows` reads the
tables of files of crates/rows and crates/block_rows, does each row over the core text, and tells those whose text or
status differs; rows that say that something isn't built are left out. Rows of whole worlds (limits, refusals) are checked.

An interrupt stops after just as many steps as it asks for. Three advisors are handed in, which are never asked. Not here:
the commands edit, units and machine, which answer `not built` with status 3, and drills, which answer `not built` with status 1. Of several rules of a text that are broken at one token the first in
order isn't always the one that is told.
"""
import re
import sys

ERRORS = "badTypeError overflowError divisionByZeroError badIndexError badSizeError primitiveNotDefined".split()
PRIMS = """_IntAdd: _IntSub: _IntMul: _IntDiv: _IntMod: _IntAnd: _IntOr: _IntXor: _IntLT: _IntLE: _IntEQ: _Eq: _Clone
_VectorNew _Size _At: _At:Put: _StringPrint _IntPrint""".split()
CORE = "nil true false integerTraits stringTraits vectorTraits blockTraits".split()
LOWEST, HIGHEST, STORE, DEPTH = -536870912, 536870911, 4194304, 4096
FILE, SIZE, NODES, PARTS, LOCALS, OPEN, PENDING = 1048576, 65536, 1024, 5, 64, 64, 64
USAGE = "usage: selfdb run WORLD | check WORLD | drill N"


class Refused(Exception):
    """A world or a script that isn't read; the text is its line."""


class Fail(Exception):
    """The error that ends an activity."""


# Tokens.

BLANK = re.compile(rb'[ \t\n\r]+|"[^"]*"')
TOKENS = [
    ("int", re.compile(rb"-?[0-9]+")),
    ("str", re.compile(rb"'(?:[^'\\]|\\.)*'", re.S)),
    ("key", re.compile(rb"(?:[a-z][A-Za-z0-9_]*|_[A-Za-z0-9_]+):")),
    ("del", re.compile(rb"[a-z][A-Za-z0-9_]*\.(?=[a-z+\-*/%<>=~!&@,?#])")),
    ("name", re.compile(rb"[a-z][A-Za-z0-9_]*")),
    ("prim", re.compile(rb"_[A-Za-z0-9_]+")),
    ("cap", re.compile(rb"[A-Z][A-Za-z0-9_]*:")),
    ("arg", re.compile(rb":[a-z][A-Za-z0-9_]*")),
    ("op", re.compile(rb"[+\-*/%<>=~!&@,?#]+")),
    ("one", re.compile(rb"[()\[\]|.^]")),
]
ESCAPES = {b"n": b"\n", b"t": b"\t", b"r": b"\r", b"0": b"\0", b"\\": b"\\", b"'": b"'", b'"': b'"'}


class Token:
    def __init__(self, kind, text, at, place):
        self.kind, self.text, self.at, self.place = kind, text, at, place
        self.value = None


class Tokens:
    """The tokens of a text, one at a time."""

    def __init__(self, text):
        self.text, self.at, self.line, self.begin, self.last = text, 0, 1, 0, None
        self.next()

    def place(self, at):
        return "%d:%d" % (self.line, at - self.begin + 1)

    def go(self, to):
        passed = self.text[self.at:to]
        if b"\n" in passed:
            self.line += passed.count(b"\n")
            self.begin = self.at + passed.rindex(b"\n") + 1
        self.at = to

    def next(self):
        while True:
            blank = BLANK.match(self.text, self.at)
            if not blank:
                break
            self.go(blank.end())
        self.now = self.read()
        self.last = self.now
        return self.now

    def read(self):
        at, place = self.at, self.place(self.at)
        if at == len(self.text):
            return Token("end", "", at, place)
        joined = self.last and (self.last.kind in ("int", "str", "name", "prim") or self.last.text in (")", "]"))
        for kind, form in TOKENS:
            found = form.match(self.text, at)
            if not found or kind == "int" and found.group().startswith(b"-") and joined:
                continue
            raw = found.group()
            token = Token(kind, raw.decode("latin-1"), at, place)
            if kind == "one":
                token.kind = token.text
            if kind == "int":
                if re.compile(rb"[A-Za-z_]|\.[0-9]").match(self.text, found.end()):
                    raise Refused("BadToken at " + place)
                token.value = int(raw) if len(raw.lstrip(b"-0")) < 10 else HIGHEST + 1
                if not LOWEST <= token.value <= HIGHEST:
                    raise Refused("IntTooWide at " + place)
            if kind == "str":
                token.value = self.unescaped(raw[1:-1], at + 1)
            self.go(found.end())
            return token
        raise Refused("BadToken at " + place)

    def unescaped(self, raw, at):
        out, i = b"", 0
        while i < len(raw):
            if raw[i:i + 1] == b"\\":
                if raw[i + 1:i + 2] not in ESCAPES:
                    self.go(at + i)
                    raise Refused("BadEscape at " + self.place(at + i))
                out += ESCAPES[raw[i + 1:i + 2]]
                i += 2
            else:
                out += raw[i:i + 1]
                i += 1
        return out


# What a text says: objects, bodies and nodes.

class Map:
    """The slots of an object and its clones: a kind and what it holds (a field's number where it is assignable)."""

    def __init__(self):
        self.slots, self.parents, self.cache = {}, [], {}


class Obj:
    """An object of slots, a vector or a string (`bytes`); the number is put when the text was read."""

    def __init__(self, kind, at=0):
        self.kind, self.at, self.number = kind, at, None
        self.map, self.fields, self.bytes = Map(), [], b""


class Body:
    """A method's or a block's body, or the slots of what may yet be an object (`owner`: holder, either, activation)."""

    def __init__(self, at, outer, name, owner):
        self.at, self.outer, self.name, self.owner, self.number = at, outer, name, owner, None
        self.args, self.locals, self.inits, self.assignable = 0, [], [], []
        self.nodes, self.places, self.has_block, self.object_alone = [], [], False, False
        self.pending, self.count, self.beyond = 0, 0, None


def more_pending(kind, *node):
    """How many more values are pending behind a node."""
    if kind in ("drop", "return", "nonlocal", "end"):
        return -1
    if kind in ("send", "selfsend", "resend"):
        return (0 if kind == "send" else 1) - node[1]
    if kind == "prim":
        return 1 - node[1] - (not node[2]) - node[3]
    return 0 if kind == "store" else 1


class Nil:
    """Stands for the object `nil` until the text was read."""


NIL = Nil()
# The tokens with which code begins.
BEGINS = ("int", "str", "name", "prim", "key", "del", "[", "(", "^")


class Reader:
    def __init__(self, text):
        self.tokens = Tokens(text)
        self.lobby = Obj("slots")
        self.objects, self.bodies, self.events, self.size, self.nesting = [self.lobby], [], [], 1, 0
        self.slot_list(self.lobby, None, ("end",), True)

    def bad(self, token=None):
        raise Refused("BadSyntax at " + (token or self.tokens.now).place)

    def take(self, kind, text=None):
        now = self.tokens.now
        if now.kind != kind or text is not None and now.text != text:
            self.bad()
        self.tokens.next()
        return now

    def sees(self, kind, text=None):
        now = self.tokens.now
        return now.kind == kind and (text is None or now.text == text)

    # Limits: one more slot, object or node; one more that is open; one more local.
    def counted(self, place):
        if self.size == SIZE:
            raise Refused("TooManyNodes at " + place)
        self.size += 1

    def opened(self, token):
        if self.nesting == OPEN:
            raise Refused("TooDeep at " + token.place)
        self.nesting += 1

    def one_more_local(self, body, token):
        if body and body.owner != "holder":
            body.count += 1
            if body.count > LOCALS:
                body.beyond = body.beyond or token.place
                if body.owner == "activation":
                    raise Refused("TooManyLocals at " + token.place)

    # Slots, to one of these tokens. They are put into an object and into a body: what has them tells itself behind them.
    def slot_list(self, owner, body, closing, is_object):
        names = set(body.locals if body else ())
        while self.tokens.now.kind not in closing:
            self.slot(owner, body, names, is_object, closing)
            if not self.sees("."):
                if self.tokens.now.kind not in closing:
                    self.bad()
                break
            self.tokens.next()

    def fresh(self, names, name, token):
        if name in names:
            raise Refused("DuplicateSlot at " + token.place)
        names.add(name)

    def slot(self, owner, body, names, is_object, closing):
        first = self.tokens.now
        if first.kind == "arg":
            if owner is self.lobby:
                self.bad()
            if body.args == PARTS:
                raise Refused("TooManyArgs at " + first.place)
            self.fresh(names, first.text[1:], first)
            self.counted(first.place)
            self.tokens.next()
            body.locals.insert(body.args, first.text[1:])
            body.inits.insert(body.args, None)
            body.assignable.insert(body.args, False)
            body.args += 1
        elif first.kind == "name":
            self.name_slot(owner, body, names, first, is_object, closing)
        elif first.kind in ("op", "key") and not first.text.startswith("_") and is_object:
            if body:
                body.object_alone = True
            self.message_slot(owner, body, names, first)
        else:
            self.bad()

    def name_slot(self, owner, body, names, first, is_object, closing):
        name = first.text
        if name in ("self", "resend"):
            self.bad()
        self.one_more_local(body, first)
        self.fresh(names, name, first)
        self.counted(first.place)
        self.tokens.next()
        kind, value = "field", NIL
        if self.sees("op", "="):
            self.tokens.next()
            if not is_object and self.sees("("):
                self.bad()
            kind, value = "const", self.contents(name, [], True, first)
        elif self.sees("op", "<-"):
            self.fresh(names, name + ":", first)
            self.tokens.next()
            value = self.contents(name, [], False, first)
        elif self.sees("op", "*") and is_object:
            self.tokens.next()
            self.take("op", "=")
            kind, value = "parent", self.contents(name, [], False, first)
        elif self.tokens.now.kind not in (*closing, "."):
            self.bad()
        else:
            self.fresh(names, name + ":", first)
        if isinstance(value, Body):
            kind = "method"
        if body:
            is_held = not isinstance(value, Body) and (not isinstance(value, Obj) or value.kind == "string")
            body.object_alone = body.object_alone or kind == "parent" or not is_held
            body.locals.append(name)
            body.inits.append(value)
            body.assignable.append(kind == "field")
        self.events.append(("there", owner, kind, name, value, first))

    def message_slot(self, owner, body, names, first):
        name, parts, args = "", 0, []
        while self.sees("key") and not parts or self.sees("cap") and parts or self.sees("op") and not parts:
            part = self.tokens.now
            if parts == PARTS:
                raise Refused("TooManyArgs at " + part.place)
            name += part.text
            parts += 1
            if parts == 1:
                self.one_more_local(body, part)
                if part.kind == "op":
                    self.fresh(names, name, part)
                self.counted(part.place)
            self.tokens.next()
            now = self.tokens.now
            if now.kind == "name" and len(args) == parts - 1:
                if now.text in ("self", "resend"):
                    self.bad()
                if now.text in args:
                    raise Refused("DuplicateSlot at " + now.place)
                self.counted(now.place)
                args.append(self.take("name").text)
            elif args:
                self.bad()
        if self.sees("op", "=") and first.kind == "key":
            self.fresh(names, name, first)
        self.take("op", "=")
        value = self.contents(name, args, True, first, parts)
        if not isinstance(value, Body):
            self.bad(first)
        self.events.append(("there", owner, "method", name, value, first))

    # A datum, or a method where one may stand.
    def contents(self, name, args, may_code, first, count=0):
        now = self.tokens.now
        if now.kind in ("int", "str"):
            self.tokens.next()
            return now.value if now.kind == "int" else self.string(now)
        if now.kind == "name":
            path = []
            while self.sees("name"):
                path.append(self.take("name"))
            cell = [path, None]
            self.events.append(("follow", cell))
            return cell
        if now.kind != "(":
            self.bad()
        self.opened(now)
        self.tokens.next()
        owner = "activation" if count else "either" if may_code else "holder"
        body, made = Body(now.at, None, name, owner), Obj("slots", now.at)
        body.locals, body.args = list(args), len(args)
        body.inits, body.assignable = [None] * len(args), [False] * len(args)
        if self.sees("|"):
            self.tokens.next()
            self.slot_list(made, body, ("|",), True)
            if self.sees("|") and count and body.args != count:
                self.bad(first)
            self.take("|")
        if self.sees(")") and not count:
            if body.args:
                self.bad()
            self.counted(now.place)
            self.nesting -= 1
            self.tokens.next()
            self.objects.append(made)
            return made
        if body.args != count:
            self.bad(first)
        if not may_code or body.object_alone or self.tokens.now.kind not in BEGINS:
            self.bad()
        if body.beyond:
            raise Refused("TooManyLocals at " + body.beyond)
        self.bodies.append(body)
        self.code(body, ")")
        return body

    def string(self, token):
        made = Obj("string", token.at)
        made.bytes = token.value
        self.objects.append(made)
        return made

    # Nodes.
    def node(self, body, token, *node):
        body.pending += more_pending(*node)
        if body.pending > PENDING:
            raise Refused("TooDeep at " + token.place)
        if len(body.nodes) == NODES:
            raise Refused("TooManyNodes at " + token.place)
        self.counted(token.place)
        body.nodes.append(node)
        body.places.append(token.place)

    def code(self, body, closing):
        if closing == "]" and self.sees("]"):
            self.node(body, self.tokens.now, "nil")
        else:
            while True:
                up = self.tokens.now if self.sees("^") else None
                if up:
                    self.tokens.next()
                self.expression(body)
                point = self.tokens.now
                if self.sees("."):
                    self.tokens.next()
                elif not self.sees(closing):
                    self.bad()
                if self.sees(closing):
                    break
                if up:
                    self.bad()
                self.node(body, point, "drop")
            if up:
                self.node(body, up, "return" if closing == ")" else "nonlocal")
                self.nesting -= 1
                self.tokens.next()
                return
        self.node(body, self.tokens.now, "end")
        self.nesting -= 1
        self.take(closing)

    def expression(self, body):
        if self.sees("key"):
            return self.keywords(body, None, False)
        delegate = None
        if self.sees("del"):
            delegate = self.tokens.now
            self.delegate_rest()
            if self.sees("key"):
                return self.keywords(body, delegate, False)
        self.binary(body, delegate)
        if self.sees("key"):
            self.keywords(body, None, True)

    def delegate_rest(self):
        if self.tokens.now.text == "self.":
            self.bad()
        self.tokens.next()

    def keywords(self, body, delegate, has_receiver):
        first, parts = self.tokens.now, []
        if first.text.startswith("_Restart:") or first.text == "_RestartIfFail:":
            self.bad()
        self.opened(first)
        while not parts or self.sees("cap"):
            if len(parts) == PARTS:
                raise Refused("TooManyArgs at " + self.tokens.now.place)
            parts.append(self.tokens.now.text)
            self.tokens.next()
            self.expression(body)
        self.nesting -= 1
        name = "".join(parts)
        if first.text.startswith("_"):
            handler = len(parts) > 1 and parts[-1] == "IfFail:"
            if handler:
                parts, name = parts[:-1], name[:-7]
            elif len(parts) == 1 and name.endswith("IfFail:") and name != "_IfFail:":
                parts, name, handler = [], name[:-7], True
            self.node(body, first, "prim", name, len(parts), not has_receiver, handler)
        elif delegate:
            self.resend(body, delegate, name, len(parts))
        elif has_receiver:
            self.node(body, first, "send", name, len(parts))
        else:
            found = self.local(body, name[:-1], True) if len(parts) == 1 else None
            if found:
                self.node(body, first, "store", *found)
            else:
                self.node(body, first, "selfsend", name, len(parts))

    def resend(self, body, delegate, name, args):
        parent = None if delegate.text == "resend." else delegate.text[:-1]
        self.node(body, delegate, "resend", name, args, parent)

    def binary(self, body, delegate):
        operator = None
        if delegate and self.sees("op"):
            operator = self.take("op")
            self.unary(body, None)
            self.resend(body, delegate, operator.text, 1)
        else:
            self.unary(body, delegate)
        while self.sees("op"):
            now = self.tokens.now
            if operator and operator.text != now.text:
                self.bad()
            operator = now
            self.tokens.next()
            self.unary(body, None)
            self.node(body, now, "send", now.text, 1)

    def unary(self, body, delegate):
        now = self.tokens.now
        if delegate or now.kind == "del":
            if not delegate:
                delegate = now
                self.delegate_rest()
            self.resend(body, delegate, self.take("name").text, 0)
        elif now.kind == "int":
            self.node(body, now, "push", now.value)
            self.tokens.next()
        elif now.kind == "str":
            self.node(body, now, "push", self.string(now))
            self.tokens.next()
        elif now.kind == "[":
            self.block(body)
        elif now.kind == "(":
            self.opened(now)
            self.tokens.next()
            self.expression(body)
            self.take(")")
            self.nesting -= 1
        elif now.kind == "name":
            found = self.local(body, now.text, False)
            if now.text == "self":
                self.node(body, now, "self")
            elif found:
                self.node(body, now, "read", *found)
            else:
                self.node(body, now, "selfsend", now.text, 0)
            self.tokens.next()
        elif now.kind == "prim":
            if now.text == "_Restart":
                self.node(body, now, "restart")
            else:
                self.node(body, now, "prim", now.text, 0, True, False)
            self.tokens.next()
        else:
            self.bad()
        while self.tokens.now.kind in ("name", "prim"):
            now = self.tokens.now
            if now.text == "_Restart":
                self.bad()
            if now.kind == "name":
                self.node(body, now, "send", now.text, 0)
            else:
                self.node(body, now, "prim", now.text, 0, False, False)
            self.tokens.next()

    def block(self, outer):
        opening = self.tokens.now
        body = Body(opening.at, outer, "block", "activation")
        outer.has_block = True
        self.opened(opening)
        self.node(outer, opening, "block", body)
        self.bodies.append(body)
        self.tokens.next()
        if self.sees("|"):
            self.tokens.next()
            self.slot_list(Obj("slots"), body, ("|",), False)
            self.take("|")
        self.code(body, "]")

    # How many bodies outwards a local is, and its number.
    def local(self, body, name, is_stored):
        up = 0
        while body:
            if name in body.locals and (not is_stored or body.assignable[body.locals.index(name)]):
                return up, body.locals.index(name)
            body, up = body.outer, up + 1
        return None


# The world of a text.

class World:
    def __init__(self, text):
        if len(text) > FILE:
            raise Refused("TooLong")
        read = Reader(text)
        self.lobby, self.size = read.lobby, read.size
        self.objects = sorted(read.objects, key=lambda made: (made is not read.lobby, made.at))
        self.bodies = sorted(read.bodies, key=lambda body: body.at)
        for number, body in enumerate(self.bodies):
            body.number = number + 1
        for event in read.events:
            self.follow(event[1]) if event[0] == "follow" else self.there(*event[1:])
        self.core = {}
        for name in CORE:
            kind, value = self.lobby.map.slots.get(name, (None, None))
            value = self.core.get("nil") if value is NIL else value
            if kind != "const" or not isinstance(value, Obj) or value.kind != "slots":
                raise Refused("MissingCore " + name)
            self.core[name] = value
        self.told = len(self.objects)
        self.fixed = {}
        for text in ERRORS + PRIMS + ["undefined"]:
            self.fixed[text] = Obj("string")
            self.fixed[text].bytes = text.encode()
            self.objects.append(self.fixed[text])
        for number, made in enumerate(self.objects):
            made.number = number
            made.fields = [self.held(value) for value in made.fields]
            slots = made.map.slots
            for name, (kind, value) in slots.items():
                if kind in ("const", "parent"):
                    slots[name] = (kind, self.held(value))
            made.map.parents = [value for kind, value in slots.values() if kind == "parent"]
        for body in self.bodies:
            body.inits = [self.held(value) for value in body.inits]

    def held(self, value):
        value = value[1] if isinstance(value, list) else value
        return self.core["nil"] if value is NIL else value

    def there(self, owner, kind, name, value, token):
        value = value[1] if isinstance(value, list) else value
        slots = owner.map.slots
        if kind == "parent" and not isinstance(value, Nil) and (not isinstance(value, Obj) or value.kind != "slots"):
            raise Refused("ParentNotObject at " + token.place)
        if kind == "field":
            slots[name] = ("field", len(owner.fields))
            slots[name + ":"] = ("assign", len(owner.fields))
            owner.fields.append(value)
        else:
            slots[name] = (kind, value)

    def follow(self, cell):
        at, path = self.lobby, cell[0]
        if path[0].text == "lobby":
            path = path[1:]
        for token in path:
            if at is NIL:
                at = self.lobby.map.slots.get("nil", (None, None))[1]
            kind, value = at.map.slots.get(token.text, (None, None)) if isinstance(at, Obj) else (None, None)
            if kind not in ("const", "parent", "field"):
                raise Refused("NoSuchPath at " + token.place)
            at = at.fields[value] if kind == "field" else value
        cell[1] = at


# Runs.

class Block:
    def __init__(self, body, maker):
        self.body, self.maker = body, maker


class Activation:
    def __init__(self, body, receiver, holder, values, maker, activity):
        self.body, self.receiver, self.holder, self.locals, self.maker = body, receiver, holder, values, maker
        self.pending, self.at, self.activity = [], 0, activity


class Activity:
    def __init__(self):
        self.acts, self.ended = [], None

    def drop(self, keep):
        for act in self.acts[keep:]:
            act.activity = None
        del self.acts[keep:]


def evaluator(args):
    return "value" if args == 0 else "value:" + "With:" * (args - 1)


class Session:
    def __init__(self, world, out):
        self.world, self.out = world, out
        self.steps = self.cost = 0
        self.made = len(world.objects)
        self.activities, self.current, self.advisors = [], None, 2

    # Lookup: the holders and slots that a walk finds, no object asked twice.
    def own(self, at, name):
        if isinstance(at, Obj):
            return at.map.slots.get(name)
        if isinstance(at, Block) and name == evaluator(at.body.args):
            return "evaluate", at.body
        return None

    def parents(self, at):
        core = self.world.core
        if isinstance(at, int):
            return [core["integerTraits"]]
        if isinstance(at, Block):
            return [core["blockTraits"]]
        return at.map.parents if at.kind == "slots" else [core[at.kind + "Traits"]]

    def find(self, starts, name):
        found, seen, waiting = [], set(), list(reversed(starts))
        while waiting:
            at = waiting.pop()
            if isinstance(at, Obj):
                if id(at) in seen:
                    continue
                seen.add(id(at))
            slot = self.own(at, name)
            if slot:
                found.append((at, slot))
            else:
                waiting.extend(reversed(self.parents(at)))
        if not found:
            raise Fail("notUnderstood")
        if len(found) > 1:
            raise Fail("ambiguous")
        return found[0]

    def find_of(self, value, name):
        slot = self.own(value, name)
        if slot:
            return value, slot
        cache = value.map.cache if isinstance(value, Obj) and value.kind == "slots" else None
        if cache is None:
            return self.find([value], name)
        if name not in cache:
            cache[name] = self.find([value], name)
        return cache[name]

    def pay(self, words):
        if self.cost + words > STORE:
            raise Fail("storeFull")
        self.cost += words

    def enter(self, activity, body, receiver, holder, args, maker):
        if len(activity.acts) == DEPTH:
            raise Fail("stackOverflow")
        if body.has_block:
            self.pay(4 + len(body.locals))
        activity.acts.append(Activation(body, receiver, holder, args + body.inits[body.args:], maker, activity))

    # A message whose slot is found, sent by an activation.
    def message(self, act, receiver, args, found):
        holder, (kind, value) = found
        if kind == "method":
            return self.enter(act.activity, value, receiver, holder, args, None)
        if kind == "evaluate":
            maker = receiver.maker
            if maker.activity is not act.activity:
                raise Fail("nonLifoBlock")
            return self.enter(act.activity, value, maker.receiver, maker.holder, args, maker)
        if kind == "assign":
            holder.fields[value] = args[0]
            value = receiver
        elif kind == "field":
            value = holder.fields[value]
        act.pending.append(value)
        act.at += 1

    def answer(self, activity, keep, value):
        activity.drop(keep)
        if not activity.acts:
            activity.ended = value
        else:
            activity.acts[-1].pending.append(value)
            activity.acts[-1].at += 1

    def step(self, activity):
        act = activity.acts[-1]
        node, pending = act.body.nodes[act.at], act.pending
        kind = node[0]
        if kind == "push":
            pending.append(node[1])
        elif kind == "read" or kind == "store":
            at = act
            for _ in range(node[1]):
                at = at.maker
            if kind == "read":
                pending.append(at.locals[node[2]])
            else:
                at.locals[node[2]] = pending.pop()
                pending.append(act.receiver)
        elif kind == "selfsend" or kind == "send":
            args = self.taken(pending, node[2])
            receiver = pending.pop() if kind == "send" else act.receiver
            self.message(act, receiver, args, self.find_of(receiver, node[1]))
            self.steps += 1
            return
        elif kind == "self":
            pending.append(act.receiver)
        elif kind == "nil":
            pending.append(self.world.core["nil"])
        elif kind == "drop":
            pending.pop()
        elif kind == "block":
            self.pay(4)
            pending.append(Block(node[1], act))
        elif kind == "resend":
            args, starts = self.taken(pending, node[2]), act.holder.map.parents
            if node[3]:
                slot = act.holder.map.slots.get(node[3])
                starts = [slot[1]] if slot and slot[0] == "parent" else []
            self.message(act, act.receiver, args, self.find(starts, node[1]))
            self.steps += 1
            return
        elif kind == "restart":
            pending.clear()
            act.at = -1
        elif kind == "prim":
            self.primitive(act, *node[1:])
            self.steps += 1
            return
        else:
            keep = len(activity.acts) - 1
            if kind == "nonlocal":
                while act.maker:
                    act = act.maker
                keep = activity.acts.index(act)
            self.answer(activity, keep, pending[-1])
            self.steps += 1
            return
        act.at += 1
        self.steps += 1

    def taken(self, pending, count):
        args = pending[len(pending) - count:]
        del pending[len(pending) - count:]
        return args

    # Primitives.
    def primitive(self, act, name, count, implied, has_handler):
        handler = act.pending.pop() if has_handler else None
        args = self.taken(act.pending, count)
        receiver = act.receiver if implied else act.pending.pop()
        known = name in PRIMS and name.count(":") == count
        error, answer = self.apply(name, receiver, args) if known else ("primitiveNotDefined", None)
        if error is None:
            act.pending.append(answer)
            act.at += 1
        elif not has_handler:
            raise Fail(error)
        else:
            told = [self.world.fixed[error], self.world.fixed[name if known else "undefined"]]
            self.message(act, handler, told, self.find_of(handler, "value:With:"))

    def truth(self, value):
        return None, self.world.core["true" if value else "false"]

    def apply(self, name, receiver, args):
        bad = ("badTypeError", None)
        all_ints = isinstance(receiver, int) and all(isinstance(arg, int) for arg in args)
        arg = args[0] if args else None
        if name == "_IntPrint":
            return self.printed(receiver, str(receiver).encode()) if all_ints else bad
        if name == "_VectorNew":
            if not all_ints:
                return bad
            return self.vector([self.world.core["nil"]] * receiver) if 0 <= receiver <= 65536 else ("badSizeError", None)
        if name.startswith("_Int"):
            return self.arithmetic(name, receiver, arg) if all_ints else bad
        if name == "_Eq:":
            if isinstance(receiver, Block) or isinstance(arg, Block):
                return bad
            return self.truth(receiver == arg if isinstance(receiver, int) else receiver is arg)
        if isinstance(receiver, Block):
            return bad
        kind = "int" if isinstance(receiver, int) else receiver.kind
        if name == "_Clone":
            return self.clone(kind, receiver)
        if name == "_StringPrint":
            return self.printed(receiver, receiver.bytes) if kind == "string" else bad
        if kind != "vector" and (kind != "string" or name == "_At:Put:"):
            return bad
        held = receiver.fields if kind == "vector" else receiver.bytes
        if name == "_Size":
            return None, len(held)
        if not isinstance(arg, int):
            return bad
        if not 0 <= arg < len(held):
            return "badIndexError", None
        if name == "_At:":
            return None, held[arg]
        held[arg] = args[1]
        return None, receiver

    def arithmetic(self, name, a, b):
        if name in ("_IntLT:", "_IntLE:", "_IntEQ:"):
            return self.truth(a < b if name == "_IntLT:" else a <= b if name == "_IntLE:" else a == b)
        if name in ("_IntDiv:", "_IntMod:"):
            if b == 0:
                return "divisionByZeroError", None
            quotient = abs(a) // abs(b) * (1 if (a < 0) == (b < 0) else -1)
            value = quotient if name == "_IntDiv:" else a - b * quotient
        else:
            value = {"Add": a + b, "Sub": a - b, "Mul": a * b, "And": a & b, "Or": a | b, "Xor": a ^ b}[name[4:-1]]
        return (None, value) if LOWEST <= value <= HIGHEST else ("overflowError", None)

    def numbered(self, made):
        made.number = self.made
        self.made += 1
        return None, made

    def vector(self, held):
        self.pay(3 + len(held))
        made = Obj("vector")
        made.fields = list(held)
        return self.numbered(made)

    def clone(self, kind, receiver):
        if kind in ("int", "string"):
            return None, receiver
        if kind == "vector":
            return self.vector(receiver.fields)
        self.pay(2 + len(receiver.fields))
        made = Obj("slots")
        made.map, made.fields = receiver.map, list(receiver.fields)
        return self.numbered(made)

    def printed(self, receiver, text):
        named = {10: "\\n", 9: "\\t", 13: "\\r", 92: "\\\\"}
        self.out("out " + "".join(named.get(b) or (chr(b) if 32 <= b <= 126 else "\\x%02x" % b) for b in text))
        return None, receiver

    # Lines.
    def shown(self, value):
        if isinstance(value, int):
            return str(value)
        if isinstance(value, Block):
            acts = self.activities[self.current].acts
            where = [i + 1 for i, act in enumerate(acts) if act is value.maker]
            return "[%d@%s]" % (value.body.number, where[0] if where else "-")
        if value is self.world.lobby:
            return "lobby"
        for name in ("nil", "true", "false"):
            if value is self.world.core[name]:
                return name
        return "#%d" % value.number

    def frames(self):
        acts = self.activities[self.current].acts
        for k in range(len(acts) - 1, -1, -1):
            act = acts[k]
            named = "".join(" %s=%s" % (n, self.shown(v)) for n, v in zip(act.body.locals, act.locals))
            self.out("frame %d %s %s self %s%s [%s]" % (
                k + 1, act.body.name, act.body.places[act.at], self.shown(act.receiver), named,
                " ".join(self.shown(value) for value in act.pending)))

    def go_on(self, most, until=None):
        activity = self.activities[self.current]
        end = self.steps + most
        while self.steps < end and not (until and until.activity is None):
            act = activity.acts[-1]
            try:
                self.step(activity)
            except Fail as fail:
                activity.drop(0)
                activity.ended = fail
                return self.out("error %s at %d line %s" % (fail, self.steps, act.body.places[act.at]))
            if not activity.acts:
                return self.out("done %s at %d" % (self.shown(activity.ended), self.steps))
        act = activity.acts[-1]
        self.out("stop at %d line %s" % (self.steps, act.body.places[act.at]))

    def spawn(self, name):
        if len(self.activities) == 4:
            return "refused too many activities"
        try:
            holder, (kind, value) = self.find_of(self.world.lobby, name)
            if kind != "method":
                return "refused not a method"
            activity = Activity()
            self.enter(activity, value, self.world.lobby, holder, [], None)
        except Fail as fail:
            return "refused %s" % fail
        self.activities.append(activity)
        self.current = len(self.activities) - 1
        return "activity %d" % len(self.activities)

    def command(self, name, word):
        if name == "spawn":
            return self.out(self.spawn(word))
        number = int(word) if word else 1
        if name == "advisor":
            if number > self.advisors:
                return self.out("refused no such advisor")
            self.advisors -= number > 0
            return self.out("advisor %d" % number)
        if name == "switch":
            if not 1 <= number <= len(self.activities):
                return self.out("refused no such activity")
            self.current = number - 1
            return self.out("activity %d" % number)
        if self.current is None:
            return self.out("refused no activity")
        activity = self.activities[self.current]
        if activity.ended is not None:
            return self.out("refused ended")
        if name == "stack":
            return self.frames()
        if name == "continue":
            if number < self.steps:
                return self.out("refused past")
            return self.go_on(number - self.steps)
        self.go_on(number, activity.acts[-1] if name == "finish" else None)


NAME = r"[a-z][A-Za-z0-9_]*"
FORMS = re.compile(r"(?:(spawn) +(%s)|(switch|run|continue|interrupt|finish|advisor) +([0-9]+)|(step|stack|units|machine))\Z" % NAME)


def script_of(text):
    """The commands of a script."""
    if len(text) > FILE:
        raise Refused("TooLong")
    commands, lines, at, built = [], text.decode("latin-1").split("\n"), 0, True
    while at < len(lines):
        line, at = lines[at].rstrip(" \t\r"), at + 1
        if not line or line.startswith("#"):
            continue
        if re.match(r"edit( +%s)+\Z" % NAME, line):
            ends = [n for n in range(at, len(lines)) if lines[n].rstrip(" \t\r") == "end"]
            if not ends:
                raise Refused("line %d" % at)
            at, built = ends[0] + 1, False
            continue
        form = FORMS.match(line)
        if not form or form.group(4) and int(form.group(4)) > 1000000000:
            raise Refused("line %d" % at)
        name = form.group(1) or form.group(3) or form.group(5)
        built = built and name not in ("units", "machine")
        commands.append((name, form.group(2) or form.group(4)))
    return commands if built else None


def answer_of(words, world, script, out):
    """Writes the lines of a call; answers its status. `world` gives the bytes of a name, and `script` those of the script;
    they raise OSError where these can't be read."""
    if len(words) != 2 or words[0] not in ("run", "check", "drill") or not words[1] or words[1].startswith("-"):
        out(USAGE)
        return 1
    if words[0] == "drill":
        is_number = re.fullmatch("[1-9][0-9]{0,3}", words[1]) and int(words[1]) <= 4000
        out("not built" if is_number else USAGE)
        return 1
    try:
        built = World(world(words[1]))
        if words[0] == "check":
            out("ok %d objects %d bodies size %d" % (built.told, len(built.bodies), built.size))
            return 0
    except OSError:
        return 4
    except Refused as refused:
        out("world refused %s" % refused)
        return 2
    try:
        commands = script_of(script())
    except OSError:
        return 4
    except Refused as refused:
        out("script refused %s" % refused)
        return 3
    if commands is None:
        out("not built")
        return 3
    session = Session(built, out)
    for name, word in commands:
        session.command(name, word)
    return 0


# Rows of the crates' tables.

def tables(text):
    """The tables of a file: constants that are texts of rows."""
    for name, raw in re.findall(r'const ([A-Z]+): &str = "((?:[^"\\]|\\.)*)"', text, re.S):
        raw = re.sub(r"\\\n[ \t\n]*", "", raw)
        yield name, re.sub(r"\\(x[0-9a-f]{2}|.)", lambda m: chr(int(m.group(1)[1:], 16)) if len(m.group(1)) > 1 else
                           {"n": "\n", "t": "\t", "r": "\r"}.get(m.group(1), m.group(1)), raw)


def transcript(core, row):
    """The fields of a row, and the lines and the status that its world and script come to. A check has no script."""
    fields, lines = row.replace("~", "\n").split(";"), []
    word = "check" if len(fields) == 3 else "run"
    status = answer_of((word, "row"), lambda name: core + fields[0].encode(), fields[1].encode, lines.append)
    return fields, lines, status


def world_of(fields):
    """The whole world of a row of limits: its front, its piece so many times, what stands behind, and its line."""
    front, piece, times, middle, closing, tail, line = fields
    marks = piece.count("#")
    turns = (piece.replace("#" * marks, "%0*d" % (marks, k)) if marks else piece for k in range(int(times)))
    return front + "".join(turns) + middle + closing * int(times) + tail, line


def check_row(row):
    """The line of the check of a row that has a whole world, and the line that its world comes to; or none."""
    fields, lines = row.replace("~", "\n").split(";"), []
    world, line = world_of(fields) if len(fields) == 7 else fields
    answer_of(("check", "row"), lambda name: world.encode(), None, lines.append)
    return ("ok " if re.match("[0-9]", line) else "world refused ") + line, lines[0]


def rows(core, files):
    wrong = total = left = 0
    for file in files:
        for name, table in tables(open(file).read()):
            for row in table.split("\n"):
                if row.count(";") in (1, 6):
                    total += 1
                    wanted, line = check_row(row)
                    if line != wanted:
                        wrong += 1
                        print("%s %s: %s\n  gives %s" % (file, name, row, line))
                    continue
                if row.count(";") not in (2, 3) or "notBuilt" in row or "not built" in row:
                    left += 1
                    continue
                fields, lines, status = transcript(core, row)
                text = "".join(line + "\n" for line in lines)
                total += 1
                if (text, str(status)) != (fields[-2], fields[-1]):
                    wrong += 1
                    print("%s %s: %s\n  gives %s;%d" % (file, name, row, text.replace("\n", "~"), status))
    print("%d rows, %d differ, %d left out" % (total, wrong, left))
    return 1 if wrong else 0


def main():
    if len(sys.argv) > 2 and sys.argv[1] == "rows":
        top = __file__.rsplit("/", 2)[0] if "/" in __file__ else ".."
        core = open(top + "/examples/add.self", "rb").read().replace(b"main = ( 3 _IntAdd: 4 ).\n", b"")
        return rows(core, sys.argv[2:])
    if len(sys.argv) == 1:
        print(__doc__)
        return 1

    def read(name):
        with open(name, "rb") as file:
            return file.read()

    write = sys.stdout.buffer
    return answer_of(sys.argv[1:], read, sys.stdin.buffer.read, lambda line: write.write(line.encode("latin-1") + b"\n"))


if __name__ == "__main__":
    sys.exit(main())
