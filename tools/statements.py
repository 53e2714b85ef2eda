"""The tokens, the tree, the statement list and the codelets of a program, for tools/explain.

This is a second, unproved way from a program to its codelets, written after docs/LANGUAGE.md and docs/MACHINE.md. It
decides nothing: the built program refuses, and tools/explain tells what is found here only where it leads to the very
refusal that the program has put.
"""

import re

RESERVED = set(b"struct int void if else define".split())
FORBIDDEN = set(
    b"while for do switch case default goto break continue return sizeof char short long unsigned signed float double "
    b"enum union typedef static const volatile include".split()
)
TOKEN = re.compile(
    rb"(?P<white>[\x09-\x0d ]+|//[^\n]*|/\*.*?\*/)"
    rb"|(?P<word>[A-Za-z_][A-Za-z0-9_]*)"
    rb"|(?P<number>0[xX][0-9a-fA-F]+|0|[1-9][0-9]*)"
    rb"|(?P<symbol><<|>>|<=|>=|==|!=|&&|\|\||[-+*/%<>=!~&|^?:;,.()\[\]{}#])",
    re.DOTALL,
)
LEVELS = [
    [b"||"], [b"&&"], [b"|"], [b"^"], [b"&"], [b"==", b"!="], [b"<", b"<=", b">", b">="], [b"<<", b">>"], [b"+", b"-"],
    [b"*", b"/", b"%"],
]
OPERATORS = {operator for level in LEVELS for operator in level}
MULTIPLYING = (b"*", b"/", b"%")
TEMPLATES = ["write", "raw", "praw", "ifelse", "sub", "nested", "pairs"]
# stages, atoms without state a stage, atoms with state a stage, bits of constants, multipliers
GEOMETRIES = {"small": (4, 4, 1, 5, False), "medium": (12, 16, 4, 16, False), "large": (32, 300, 10, 32, True)}
TARGETS = [template + "-" + geometry for template in TEMPLATES for geometry in GEOMETRIES]


class Token:
    def __init__(self, kind, text, at):
        self.kind, self.text, self.at = kind, text, at


def tokens_of(text):
    """The tokens up to the first place where none starts; the kinds are word, number, symbol and end."""
    found, at = [], 0
    while at < len(text):
        match = TOKEN.match(text, at)
        if match is None or text.startswith(b"/*", at) and match.lastgroup != "white":
            break
        if match.lastgroup != "white":
            found.append(Token(match.lastgroup, match.group(), at))
        at = match.end()
    found.append(Token("end", b"", len(text)))
    return found


class Unexpected(Exception):
    """No program goes on with this token; `expected` are the tokens that one goes on with."""

    def __init__(self, token, expected):
        super().__init__()
        self.token, self.expected = token, expected


class Parser:
    """The grammar of docs/LANGUAGE.md. Expressions and statements are tuples that begin with a kind and an offset."""

    def __init__(self, text):
        self.tokens, self.place, self.expected = tokens_of(text), 0, []
        self.heads, self.transactions = [], []

    def token(self):
        return self.tokens[self.place]

    def wants(self, text):
        """Whether this word or symbol stands here; else it is noted as one that may stand here."""
        token = self.token()
        if token.kind in ("word", "symbol") and token.text == text:
            return True
        self.expected.append(text)
        return False

    def step(self):
        token = self.token()
        self.place, self.expected = self.place + 1, []
        return token

    def has(self, text):
        if self.wants(text):
            self.step()
            return True
        return False

    def fail(self):
        raise Unexpected(self.token(), self.expected)

    def need(self, text):
        if not self.wants(text):
            self.fail()
        return self.step()

    def is_name(self):
        token = self.token()
        if token.kind == "word" and token.text not in RESERVED and token.text not in FORBIDDEN:
            return True
        self.expected.append("a name")
        return False

    def name(self):
        if not self.is_name():
            self.fail()
        return self.step()

    def is_number(self):
        if self.token().kind == "number":
            return True
        self.expected.append("a number")
        return False

    def number(self):
        if not self.is_number():
            self.fail()
        return number_of(self.step().text)

    def constant(self):
        if self.has(b"-"):
            return -self.number() & 0xFFFFFFFF
        return self.number()

    def program(self):
        has_struct = False
        while True:
            if self.has(b"#"):
                self.need(b"define")
                name = self.name()
                self.heads.append(("define", name, self.constant()))
            elif self.has(b"int"):
                self.a_global()
            elif not has_struct and self.wants(b"struct"):
                self.a_struct()
                has_struct = True
            elif has_struct and self.wants(b"void"):
                break
            else:
                self.fail()
        while self.wants(b"void"):
            self.a_transaction()
            if self.token().kind == "end":
                return self
            self.expected.append("the end of the program")
        self.fail()

    def a_struct(self):
        self.step()
        tag = self.name()
        self.need(b"{")
        fields = []
        while not fields or not self.has(b"}"):
            self.need(b"int")
            fields.append(self.name())
            self.need(b";")
        self.need(b";")
        self.heads.append(("struct", tag, fields))

    def a_global(self):
        name, length, first = self.name(), None, None
        if self.has(b"["):
            if self.is_number():
                length = number_of(self.step().text)
            else:
                length = self.name()
            self.need(b"]")
        if self.has(b"="):
            braces = self.has(b"{")
            first = self.step() if self.is_name() else self.constant()
            if braces:
                self.need(b"}")
        self.need(b";")
        self.heads.append(("global", name, length, first))

    def a_transaction(self):
        self.step()
        self.name()
        self.need(b"(")
        self.need(b"struct")
        tag, parameter, guard = self.name(), None, None
        parameter = self.name()
        self.need(b")")
        if self.has(b"if"):
            self.need(b"(")
            guard = self.expression()
            self.need(b")")
        self.need(b"{")
        self.transactions.append((tag, parameter, guard, self.block()))

    def block(self):
        statements = []
        while not self.has(b"}"):
            statements.append(self.statement())
        return statements

    def statement(self):
        if self.wants(b"if"):
            return self.an_if()
        return self.an_assignment()

    def an_if(self):
        at = self.step().at
        self.need(b"(")
        test = self.expression()
        self.need(b")")
        yes, no = self.body(False), []
        if self.has(b"else"):
            no = self.body(True)
        return ("branch", at, test, yes, no)

    def body(self, is_else):
        if self.has(b"{"):
            return self.block()
        if is_else and self.wants(b"if"):
            return [self.an_if()]
        return [self.an_assignment()]

    def an_assignment(self):
        name = self.name()
        target = ("word", name.at, name.text)
        if self.has(b"."):
            field = self.name()
            target = ("field", name.at, name.text, field.at, field.text)
        elif self.has(b"["):
            target = ("index", name.at, name.text, self.expression())
            self.need(b"]")
        self.need(b"=")
        value = self.expression()
        self.need(b";")
        return ("assign", name.at, target, value)

    def expression(self):
        first = self.chain(0)
        if self.wants(b"?"):
            at = self.step().at
            yes = self.expression()
            self.need(b":")
            return ("choice", at, first, yes, self.expression())
        return first

    def chain(self, level):
        if level == len(LEVELS):
            return self.operand()
        first, rest = self.chain(level + 1), []
        while self.token().kind == "symbol" and self.token().text in LEVELS[level]:
            operator = self.step()
            rest.append((operator.text, operator.at, self.chain(level + 1)))
        self.expected.append("an operator")
        return ("chain", first[1], first, rest) if rest else first

    def operand(self):
        token = self.token()
        if token.kind == "symbol" and token.text in (b"-", b"~", b"!"):
            self.step()
            if token.text == b"-" and self.token().kind == "number":
                return ("number", token.at, self.number_after_sign())
            return ("un", token.at, token.text, self.operand())
        if token.kind == "number":
            return ("number", token.at, number_of(self.step().text))
        if token.kind == "symbol" and token.text == b"(":
            self.step()
            inside = self.expression()
            self.need(b")")
            return inside
        if token.kind == "word" and self.is_name():
            return self.named()
        self.expected.append("a value")
        self.expected = [text for text in self.expected if text != "a name"]
        self.fail()

    def number_after_sign(self):
        return -number_of(self.step().text) & 0xFFFFFFFF

    def named(self):
        name = self.step()
        if self.has(b"."):
            field = self.name()
            return ("field", name.at, name.text, field.at, field.text)
        if self.has(b"["):
            index = self.expression()
            self.need(b"]")
            return ("index", name.at, name.text, index)
        if self.has(b"("):
            return ("call", name.at, name.text, self.arguments())
        return ("word", name.at, name.text)

    def arguments(self):
        if self.has(b")"):
            return []
        arguments = [self.expression()]
        while self.has(b","):
            arguments.append(self.expression())
        self.need(b")")
        return arguments


def number_of(text):
    return int(text, 16) if text[:2] in (b"0x", b"0X") else int(text)


def signed(word):
    return word - (1 << 32) if word >> 31 else word


def is_hash(name):
    return re.fullmatch(rb"hash[1-4][a-h]?", name) is not None


# ---- From the tree of a program that is well formed to its statement list. Parts are tuples of a kind, an offset and
# more: number, field, state, fresh, made, call, un, chain and choice.


class Program:
    def __init__(self, text):
        tree = Parser(text).program()
        self.defines, self.arrays, self.lengths, self.scalars, self.fields = {}, [], [], set(), []
        self.parameter = tree.transactions[0][1].text
        for head in tree.heads:
            if head[0] == "define":
                self.defines[head[1].text] = head[2]
            elif head[0] == "struct":
                self.fields = [field.text for field in head[2]]
            else:
                self.arrays.append(head[1].text)
                if head[2] is None:
                    self.scalars.add(head[1].text)
        self.tree = tree
        self.steps = []
        self.fresh = sum(1 for transaction in tree.transactions if transaction[2] is not None)
        self.straighten()
        self.items, self.outputs = [], []
        self.name_values()
        self.lines, self.places = [], []
        self.flatten_all()

    # resolved parts

    def place_of(self, index):
        if index[0] == "field":
            return ("field", self.fields.index(index[4]))
        return ("word", index[2] if index[0] == "number" else self.defines[index[2]])

    def part(self, e):
        kind, at = e[0], e[1]
        if kind == "number":
            return ("number", at, e[2])
        if kind == "word":
            if e[2] in self.defines:
                return ("number", at, self.defines[e[2]])
            return ("state", at, self.arrays.index(e[2]), ("word", 0))
        if kind == "field":
            return ("field", at, self.fields.index(e[4]))
        if kind == "index":
            return ("state", at, self.arrays.index(e[2]), self.place_of(e[3]))
        if kind == "call":
            return ("call", at, e[2], [self.part(a) for a in e[3]])
        if kind == "un":
            return ("un", at, e[2], self.part(e[3]))
        if kind == "chain":
            return ("chain", at, self.part(e[2]), [(o, p, self.part(a)) for o, p, a in e[3]])
        return ("choice", at, self.part(e[2]), self.part(e[3]), self.part(e[4]))

    def goal(self, target):
        if target[0] == "field":
            return ("field", self.fields.index(target[4]))
        if target[0] == "word":
            return ("state", self.arrays.index(target[2]), ("word", 0))
        return ("state", self.arrays.index(target[2]), self.place_of(target[3]))

    # branches as conditional moves: a step is a goal, a part and the offset of its assignment or condition

    def straighten(self):
        guards = 0
        for _, _, guard, _ in self.tree.transactions:
            if guard is not None:
                self.steps.append((("fresh", guards), self.part(guard), guard[1]))
                guards += 1
        guards = 0
        for _, _, guard, body in self.tree.transactions:
            branches = []
            if guard is not None:
                branches = [(guards, True)]
                guards += 1
            self.straighten_body(body, branches)

    def straighten_body(self, body, branches):
        for statement in body:
            if statement[0] == "assign":
                goal, value, at = self.goal(statement[2]), self.part(statement[3]), statement[1]
                old = (goal[0], at) + goal[1:]
                for number, taken in reversed(branches):
                    test = ("fresh", at, number)
                    value = ("choice", at, test, value, old) if taken else ("choice", at, test, old, value)
                self.steps.append((goal, value, at))
            else:
                number = self.fresh
                self.fresh += 1
                self.steps.append((("fresh", number), self.part(statement[2]), statement[2][1]))
                self.straighten_body(statement[3], branches + [(number, True)])
                self.straighten_body(statement[4], branches + [(number, False)])

    # flanks, and one name for each value: an item is a read, a value or a write

    def name_values(self):
        fields = [("field", 0, k) for k in range(len(self.fields))]
        zero = ("number", 0, 0)
        arrays, indexes = [zero] * len(self.arrays), [zero] * len(self.arrays)
        fresh = [zero] * self.fresh
        mentioned, first_targets = set(), {}

        def mention(array, index, at):
            if array not in mentioned:
                mentioned.add(array)
                operand = ("number", at, index[1]) if index[0] == "word" else fields[index[1]]
                arrays[array], indexes[array] = ("made", at, len(self.items)), operand
                self.items.append(("read", at, array, operand))

        def mentions(part):
            if part[0] == "state":
                mention(part[2], part[3], part[1])
            elif part[0] == "call":
                for argument in part[3]:
                    mentions(argument)
            elif part[0] == "un":
                mentions(part[3])
            elif part[0] == "chain":
                mentions(part[2])
                for _, _, operand in part[3]:
                    mentions(operand)
            elif part[0] == "choice":
                for operand in part[2:]:
                    mentions(operand)

        def renamed(part):
            kind, at = part[0], part[1]
            if kind == "field":
                return fields[part[2]]
            if kind == "state":
                return arrays[part[2]]
            if kind == "fresh":
                return fresh[part[2]]
            if kind == "call":
                return (kind, at, part[2], [renamed(a) for a in part[3]])
            if kind == "un":
                return (kind, at, part[2], renamed(part[3]))
            if kind == "chain":
                return (kind, at, renamed(part[2]), [(o, p, renamed(a)) for o, p, a in part[3]])
            if kind == "choice":
                return (kind, at, renamed(part[2]), renamed(part[3]), renamed(part[4]))
            return part

        for goal, value, at in self.steps:
            mentions(value)
            if goal[0] == "state":
                mention(goal[1], goal[2], at)
                first_targets.setdefault(goal[1], at)
            if value[0] in ("number", "field", "state", "fresh"):
                operand = renamed(value)
            else:
                self.items.append(("make", at, renamed(value)))
                operand = ("made", at, len(self.items) - 1)
            table = {"field": fields, "state": arrays, "fresh": fresh}[goal[0]]
            table[goal[1]] = operand
        for array in sorted(first_targets):
            self.items.append(("write", first_targets[array], array, indexes[array], arrays[array]))
        self.outputs = fields

    # statements of one operation each: fetch, store, un, bin, cond and hash; an operand is a constant or a value

    def flatten_all(self):
        count, lines, places, values = len(self.fields), [], [], []

        def ended(line, at):
            lines.append(line)
            places.append(at)
            return ("value", count + len(lines) - 1)

        def flattened(part, modulus=0):
            kind, at = part[0], part[1]
            if kind == "number":
                return ("const", part[2])
            if kind == "field":
                return ("value", part[2])
            if kind == "made":
                return values[part[2]]
            if kind == "call":
                return ended(("hash", part[2], modulus) + tuple([flattened(a) for a in part[3]]), at)
            if kind == "un":
                return ended(("un", part[2], flattened(part[3])), at)
            if kind == "choice":
                operands = [flattened(a) for a in part[2:]]
                return ended(("cond",) + tuple(operands), at)
            first, rest, taken = part[2], part[3], 0
            if first[0] == "call" and rest[0][0] == b"%" and rest[0][2][0] == "number":
                taken = rest[0][2][2] if 1 <= rest[0][2][2] <= 2147483647 else 0
            operand = flattened(first, taken)
            for operator, place, right in rest[1 if taken else 0:]:
                operand = ended(("bin", operator, operand, flattened(right)), place)
            return operand

        for item in self.items:
            if item[0] == "read":
                values.append(ended(("fetch", item[2], flattened(item[3])), item[1]))
            elif item[0] == "make":
                values.append(flattened(item[2]))
            else:
                index = flattened(item[3])
                values.append(ended(("store", item[2], index, flattened(item[4])), item[1]))
        outputs = [flattened(part) for part in self.outputs]
        stored = {line[1] for line in lines if line[0] == "store"}
        marks = [False] * len(lines)
        for kind, number in outputs:
            if kind == "value" and number >= count:
                marks[number - count] = True
        for k in range(len(lines) - 1, -1, -1):
            line = lines[k]
            if marks[k] or line[0] == "store" or line[0] == "fetch" and line[1] in stored:
                marks[k] = True
                for kind, number in operands_of(line):
                    if kind == "value" and number >= count:
                        marks[number - count] = True
        numbers, kept = {}, 0
        for k, mark in enumerate(marks):
            if mark:
                numbers[count + k] = count + kept
                kept += 1

        def renumbered(operand):
            return ("value", numbers.get(operand[1], operand[1])) if operand[0] == "value" else operand

        self.lines = [with_operands(line, renumbered) for line, mark in zip(lines, marks) if mark]
        self.places = [at for at, mark in zip(places, marks) if mark]
        self.outputs = [renumbered(operand) for operand in outputs]


def first_operand(line):
    return {"fetch": 2, "store": 2, "un": 2, "bin": 2, "cond": 1, "hash": 3}[line[0]]


def operands_of(line):
    return line[first_operand(line):]


def with_operands(line, change):
    at = first_operand(line)
    return line[:at] + tuple([change(operand) for operand in line[at:]])


# ---- Codelets: their statements, twins, levels and order.


class Codelet:
    def __init__(self, numbers, stateful):
        self.numbers, self.first, self.stateful = numbers, numbers[0], stateful
        self.uses, self.level = [], 0


class Codelets:
    """Of a program of at most 512 statements."""

    def __init__(self, program):
        self.program = program
        self.fields, lines = len(program.fields), program.lines
        self.count = len(lines)
        made = [[v - self.fields for k, v in operands_of(line) if k == "value" and v >= self.fields] for line in lines]
        classes = self.classes(lines, made)
        home = {}
        for members in classes:
            for number in members:
                home[number] = members
        self.home = home
        stateful = {members[0]: any(lines[b][0] in ("fetch", "store") for b in members) for members in classes}
        written = {line[3][1] - self.fields for line in lines if line[0] == "store" and line[3][0] == "value"}
        users = {a: [b for b in range(self.count) if a in made[b]] for a in range(self.count)}
        shown = {v - self.fields for k, v in program.outputs if k == "value"}
        twins = set()
        for a in range(self.count - 1, -1, -1):
            members = home[a]
            stores = [lines[b] for b in members if lines[b][0] == "store"]
            is_written = a in written and any(line[3] == ("value", self.fields + a) for line in stores)
            if not stateful[members[0]] or lines[a][0] in ("fetch", "store") or is_written:
                continue
            outside = a in shown or any(home[b] is not members for b in users[a])
            if outside or any(b in twins for b in users[a]):
                twins.add(a)
        self.twins = twins
        self.table = {}
        for b in range(self.count):
            self.table[b] = with_operands(lines[b], lambda operand, b=b: self.seen_by(b, operand))
        for a in twins:
            self.table[self.count + a] = with_operands(lines[a], self.outer)
        every = [Codelet(members, stateful[members[0]]) for members in classes]
        every += [Codelet([self.count + a], False) for a in sorted(twins)]
        owner = {number: codelet for codelet in every for number in codelet.numbers}
        for codelet in every:
            used = []
            for number in codelet.numbers:
                for kind, value in operands_of(self.table[number]):
                    other = owner[value - self.fields] if kind == "value" and value >= self.fields else codelet
                    if other is not codelet and other not in used:
                        used.append(other)
            codelet.uses = used
        self.set_levels(every)
        self.list = sorted(every, key=lambda codelet: (codelet.level, codelet.first))

    @staticmethod
    def set_levels(every):
        changed = True
        for codelet in every:
            codelet.level = 1
        while changed:
            changed = False
            for codelet in every:
                level = 1 + max([other.level for other in codelet.uses], default=0)
                if level != codelet.level:
                    codelet.level, changed = level, True

    @staticmethod
    def classes(lines, made):
        count = len(lines)
        after = [set() for _ in range(count)]
        for b in range(count):
            for a in made[b]:
                after[a].add(b)
        fetches = {line[1]: k for k, line in enumerate(lines) if line[0] == "fetch"}
        for k, line in enumerate(lines):
            if line[0] == "store" and line[1] in fetches:
                after[k].add(fetches[line[1]])
                after[fetches[line[1]]].add(k)
        reach = [{k} for k in range(count)]
        for k in range(count):
            ahead = [k]
            while ahead:
                for b in after[ahead.pop()]:
                    if b not in reach[k]:
                        reach[k].add(b)
                        ahead.append(b)
        found, seen = [], set()
        for k in range(count):
            if k not in seen:
                members = [b for b in sorted(reach[k]) if k in reach[b]]
                seen.update(members)
                found.append(members)
        return found

    def outer(self, operand):
        if operand[0] == "value" and operand[1] - self.fields in self.twins:
            return ("value", operand[1] + self.count)
        return operand

    def seen_by(self, b, operand):
        if operand[0] == "value" and operand[1] >= self.fields and self.home[operand[1] - self.fields] is self.home[b]:
            return operand
        return self.outer(operand)

    def place(self, number):
        return self.program.places[number % self.count]

    # what a target says

    def refusal(self, target):
        """The refusal line of this target without `refused,`; None where the program has a configuration there."""
        template, geometry = target.split("-")
        depth, stateless, stateful, bits, multiplies = GEOMETRIES[geometry]
        for codelet in self.list:
            if self.reason(codelet, template, bits, multiplies) is not None:
                return "outside,%d" % codelet.first
        chain = self.longest_chain()
        if len(chain) > depth:
            return "deep," + ",".join([str(codelet.first) for codelet in chain])
        return self.full(depth, {False: stateless, True: stateful})

    def longest_chain(self):
        chains = {}
        for codelet in self.list:
            before = [chains[id(other)] for other in codelet.uses if other.level == codelet.level - 1]
            best = min(before, key=lambda chain: [c.first for c in chain], default=[])
            chains[id(codelet)] = best + [codelet]
        deepest = max([codelet.level for codelet in self.list], default=0)
        longest = [chains[id(codelet)] for codelet in self.list if codelet.level == deepest]
        return min(longest, key=lambda chain: [c.first for c in chain], default=[])

    def full(self, depth, width):
        stages, held = {}, {}
        for codelet in self.list:
            stage = 1 + max([stages[id(other)] for other in codelet.uses], default=0)
            while stage <= depth and held.get((codelet.stateful, stage), 0) == width[codelet.stateful]:
                stage += 1
            if stage > depth:
                for kind in (codelet.stateful, not codelet.stateful):
                    for at in range(1, depth + 1):
                        if held.get((kind, at), 0) == width[kind]:
                            return "full,%d,%s,%d" % (codelet.first, "stateful" if kind else "stateless", at)
            stages[id(codelet)] = stage
            held[(codelet.stateful, stage)] = held.get((codelet.stateful, stage), 0) + 1
        return None

    def reason(self, codelet, template, bits, multiplies):
        """Why no atom does the codelet, as a word and what belongs to it; None where one does."""
        if not codelet.stateful:
            line = self.table[codelet.first]
            if line[0] == "bin" and line[1] in MULTIPLYING and not multiplies:
                return ("multiplier", line[1])
            return None
        slots = self.slots(codelet)
        made = {self.fields + b for b in codelet.numbers}
        for array, index, _, _ in slots:
            if index[0] == "value" and index[1] in made:
                return ("index", array)
        if len(slots) > 2:
            return ("slots", [slot[0] for slot in slots])
        trees = Matcher(self, codelet, slots).trees()
        if None in trees:
            return ("trees", slots[trees.index(None)][0])
        if not takes(template, trees):
            least = [name for name in TEMPLATES if takes(name, trees)]
            return ("template", least[0])
        if not all(within(bits, word) for tree in trees for word in constants_of(tree)):
            wide = [word for tree in trees for word in constants_of(tree) if not within(bits, word)]
            return ("constant", wide[0])
        return None

    def slots(self, codelet):
        """Array, index, value of the read flank and operand that is written, for each array of the codelet."""
        found = {}
        for b in codelet.numbers:
            line = self.table[b]
            if line[0] == "fetch":
                found[line[1]] = [line[1], line[2], self.fields + b, None]
        for b in codelet.numbers:
            line = self.table[b]
            if line[0] == "store" and line[1] in found:
                found[line[1]][3] = line[3]
        return [found[array] for array in sorted(found)]


# ---- Trees. An answer is ("is", leaf), ("other",), ("asks", guard) or ("nothing",); a leaf is ("keep",), or ("put",
# port), ("add", port) or ("sub", port); a verdict is True, False, ("asks", guard) or None; a tree is a leaf or ("fork",
# guard, a, b).

NOTHING = ("nothing",)


class Matcher:
    def __init__(self, codelets, codelet, slots):
        self.codelets, self.slots = codelets, slots
        self.made = {codelets.fields + b for b in codelet.numbers}

    def trees(self):
        found = []
        for state, (_, _, read, write) in enumerate(self.slots):
            other = self.slots[1 - state][2] if len(self.slots) == 2 else None
            found.append(("keep",) if write is None else self.tree(state, read, other, 2, (), write))
        return found

    def tree(self, state, read, other, depth, facts, operand):
        answer = Finder(self, state, read, other, facts).of(operand)[0]
        if answer[0] == "is":
            return answer[1]
        if answer[0] != "asks" or depth == 0:
            return None
        guard = answer[1]
        yes = self.tree(state, read, other, depth - 1, ((guard, True),) + facts, operand)
        no = self.tree(state, read, other, depth - 1, ((guard, False),) + facts, operand)
        return None if yes is None or no is None else ("fork", guard, yes, no)


class Finder:
    """What is found of values, given the answers of guards."""

    def __init__(self, matcher, state, read, other, facts):
        self.matcher, self.state, self.read, self.other, self.facts = matcher, state, read, other, facts
        self.known = {}

    def of(self, operand):
        if operand[0] == "const":
            return self.found(("is", ("put", operand)))
        value = operand[1]
        if value not in self.known:
            self.known[value] = self.look(value)
        return self.known[value]

    def look(self, value):
        if value == self.read:
            return self.found(("is", ("keep",)))
        if value == self.other:
            return self.found(("other",))
        if value not in self.matcher.made:
            return self.found(("is", ("put", ("value", value))))
        codelets = self.matcher.codelets
        line = codelets.table[value - codelets.fields]
        if line[0] == "un":
            verdict = self.of(line[2])[1]
            return (NOTHING, opposite(verdict) if line[1] == b"!" else None)
        if line[0] == "bin":
            return self.bin(line[1], self.of(line[2]), self.of(line[3]))
        if line[0] == "cond":
            verdict = self.of(line[1])[1]
            if verdict is None:
                return self.found(NOTHING)
            if isinstance(verdict, tuple):
                return self.found(verdict)
            return self.found(self.of(line[2] if verdict else line[3])[0])
        return (NOTHING, None)

    def bin(self, operator, a, b):
        if operator in (b"+", b"-"):
            for answer in (a[0], b[0]):
                if answer[0] == "asks":
                    return self.found(answer)
            if a[0][0] == "is" and b[0][0] == "is":
                return self.found((sum_of if operator == b"+" else difference_of)(a[0][1], b[0][1]))
            return self.found(NOTHING)
        if operator == b"&&":
            return (NOTHING, b[1] if a[1] is True else a[1])
        if operator == b"||":
            return (NOTHING, b[1] if a[1] is False else a[1])
        if operator in (b"<", b"<=", b">", b">=", b"==", b"!="):
            return (NOTHING, self.related(operator, a[0], b[0]))
        return (NOTHING, None)

    def related(self, operator, a, b):
        for answer in (a, b):
            if answer[0] == "asks":
                return answer
        x, y = self.source(a), self.source(b)
        if x is None or y is None:
            return None
        if operator in (b"==", b"!="):
            verdict = self.ask(("eq", x, y))
        elif operator in (b"<", b">="):
            verdict = self.ask(("lt", x, y))
        else:
            verdict = self.ask(("lt", y, x))
        return opposite(verdict) if operator in (b"!=", b">=", b"<=") else verdict

    def found(self, answer):
        if answer[0] == "asks":
            return (answer, answer)
        source = self.source(answer)
        return (answer, None if source is None else opposite(self.ask(("eq", source, ("const", 0)))))

    def source(self, answer):
        if answer[0] == "other":
            return ("state", 1 - self.state)
        if answer[0] != "is" or answer[1][0] in ("add", "sub"):
            return None
        return ("state", self.state) if answer[1][0] == "keep" else answer[1][1]

    def ask(self, guard):
        for known, holds in self.facts:
            if known == guard:
                return holds
        return ("asks", guard)


def opposite(verdict):
    return not verdict if isinstance(verdict, bool) else verdict


def sum_of(a, b):
    if a[0] == "put" and b[0] == "keep":
        a, b = b, a
    if a[0] == "keep" and b[0] == "put":
        return ("is", ("add", b[1]))
    if a[0] == "put" and b[0] == "put" and a[1][0] == "const" and b[1][0] == "const":
        return ("is", ("put", ("const", a[1][1] + b[1][1] & 0xFFFFFFFF)))
    return NOTHING


def difference_of(a, b):
    if b[0] != "put":
        return NOTHING
    if a[0] == "keep":
        return ("is", ("add", ("const", -b[1][1] & 0xFFFFFFFF)) if b[1][0] == "const" else ("sub", b[1]))
    if a[0] == "put" and a[1][0] == "const" and b[1][0] == "const":
        return ("is", ("put", ("const", a[1][1] - b[1][1] & 0xFFFFFFFF)))
    return NOTHING


def is_low(tree, depth, leaves):
    if tree[0] == "fork":
        return depth > 0 and is_low(tree[2], depth - 1, leaves) and is_low(tree[3], depth - 1, leaves)
    return tree[0] in leaves


def takes(template, trees):
    """Whether the template takes trees of this form, whatever their constants."""
    leaves = {"write": ("keep", "put"), "raw": ("keep", "put", "add"), "praw": ("keep", "put", "add"),
              "ifelse": ("keep", "put", "add")}.get(template, ("keep", "put", "add", "sub"))
    depth = {"write": 0, "raw": 0, "nested": 2, "pairs": 2}.get(template, 1)
    if len(trees) > 1 and template != "pairs" or not all(is_low(tree, depth, leaves) for tree in trees):
        return False
    if template == "praw" and trees[0][0] == "fork" and ("keep",) not in trees[0][2:]:
        return False
    return all(k < len(trees) for tree in trees for k in states_of(tree))


def sources_of(tree):
    if tree[0] == "fork":
        return list(tree[1][1:]) + sources_of(tree[2]) + sources_of(tree[3])
    return list(tree[1:])


def states_of(tree):
    return [source[1] for source in sources_of(tree) if source[0] == "state"]


def constants_of(tree):
    return [source[1] for source in sources_of(tree) if source[0] == "const"]


def within(bits, word):
    return bits >= 32 or -(1 << bits - 1) <= signed(word) < 1 << bits - 1
