"""How the notation of requests is read, and put into words. `driver.py` says what both look like."""
import re

NAME = re.compile(r"[A-Za-z0-9_]+|\#[0-9]+")
NUMBER = re.compile(r"[0-9]+")
WORD = re.compile(r"[A-Za-z0-9_]+")
KIND = re.compile(r"[a-z]+(?:-[a-z]+)?")
SPOT = re.compile(r"([0-9]+):([0-9]+)")
PART = re.compile(r"spec|expr")
THREAD = re.compile(r"(main|clock)|t([0-9]+)|r([0-9]+)\.([0-9]+)")
# What a node of a pattern begins with: a literal with nothing, a text with its first sign.
PATTERN_NODE = re.compile(r"\{\|->\}|\|->|-(?![0-9])|\^ |given\b|(?:name|set|seq|tuple|map|record) |\"|")
TEXT = re.compile(r"[^\"]*\"")
# A value without parts, or what stands before the parts of one.
VALUE = re.compile(
    rf"""(?P<open>mk_token\(|mk_\(|\[|\{{(?!\|->\}}))
    | (?P<record>mk_(?P<class>{NAME.pattern})`(?P<name>{NAME.pattern})\()
    | (?P<object>(?P<of>{NAME.pattern})\#(?P<number>[0-9]+))
    | (?P<int>-?[0-9]+)
    | (?P<word>nil|true|false)
    | <(?P<quote>{NAME.pattern})>
    | '(?P<sign>[\x00-\x7f])'
    | char\((?P<char>[0-9]+)\)
    | (?P<none>\{{\|->\}})""",
    re.VERBOSE,
)
OPENINGS = {"mk_token(": ("token", ")"), "mk_(": ("tuple", ")"), "[": ("seq", "]"), "{": ("set", "}")}
# Runs of bytes, so that texts of millions of them take no time.
ENCODED = re.compile(rb"(?:%[0-9A-Fa-f]{2})++")
UNSAFE = re.compile(rb"[^!-$&-~]+")
QUOTED = 40


class BadRequest(Exception):
    """What is read is not in the notation of requests; the text says where."""


def bytes_of(text):
    """Returns the bytes that a text stands for."""
    return ENCODED.sub(lambda run: bytes.fromhex(run[0].decode().replace("%", "")), text.encode())


def word_of(text):
    """Returns the word for a text."""
    return "." + UNSAFE.sub(lambda run: b"%" + run[0].hex("%").upper().encode(), bytes_of(text)).decode()


class Line:
    """The words of a line so far, and the names that it has declared."""

    def __init__(self, word):
        self.words, self.names = [word], {}

    def put(self, *words):
        self.words += words

    def name(self, text):
        """Returns which name this is. It is declared where it is new."""
        if text not in self.names:
            self.names[text] = str(len(self.names))
            self.declare(text)
        return self.names[text]

    def declare(self, text):
        if text.startswith("#"):
            self.put("number", text[1:])
        else:
            self.put("name", word_of(text))


class Open:
    """A value that is not read whole: its instruction, what closes it, and how many parts and pairs it has so far."""

    def __init__(self, words, closing, parts=0):
        self.words, self.closing, self.parts, self.pairs = words, closing, parts, 0

    def closed(self):
        """Returns the words of its instruction, or nothing where it cannot have these parts."""
        if self.words == ("token",):
            return self.words if self.parts == 1 else ()
        if self.pairs:
            return ("map", str(self.parts)) if self.pairs == self.parts else ()
        return *self.words, str(self.parts)


class Reader:
    """What is still to be read of a text, and the line that gets its words."""

    def __init__(self, line, text):
        self.line, self.text, self.place = line, text, 0

    def fail(self):
        if self.place == len(self.text):
            raise BadRequest(f"more should stand behind '{self.text[-QUOTED:]}'")
        raise BadRequest(f"what begins with '{self.text[self.place :][:QUOTED]}' should not stand here")

    def begins(self, *signs):
        return self.text.startswith(signs, self.place)

    def takes(self, sign):
        """Reads the sign, if it stands next, and returns whether it does."""
        if not self.text.startswith(sign, self.place):
            return False
        self.place += len(sign)
        return True

    def expect(self, sign):
        if not self.takes(sign):
            self.fail()

    def found(self, pattern):
        """Reads what stands next, which has to be as the pattern says."""
        found = pattern.match(self.text, self.place)
        if not found:
            self.fail()
        self.place = found.end()
        return found

    def end(self):
        if self.place < len(self.text):
            self.fail()

    def number(self):
        return self.found(NUMBER)[0]

    def word(self):
        return self.found(WORD)[0]

    def name(self):
        return self.line.name(self.found(NAME)[0])

    def spot(self):
        return self.found(SPOT).groups()

    def part(self):
        return self.found(PART)[0]

    def place_in_part(self):
        part = self.part()
        self.expect(" ")
        return part, *self.spot()

    def thread(self):
        word, of, *release = self.found(THREAD).groups()
        if word:
            return (word,)
        return ("of", of) if of else ("release", *release)

    def listed(self, read, closing):
        """Reads parts up to the closing sign, with `, ` between each two, and returns how many."""
        count = 0
        while not self.takes(closing):
            if count:
                self.expect(", ")
            read()
            count += 1
        return str(count)

    # Values and slots.

    def value(self):
        nested = []
        self.begin(nested)
        while nested:
            self.go_on(nested)

    def begin(self, nested):
        """Reads a value without parts, or what stands before the parts of one, which then is the innermost."""
        found = self.found(VALUE)
        match found.lastgroup:
            case "int":
                self.line.put("int", found[0])
            case "word":
                self.line.put(found[0])
            case "open":
                word, closing = OPENINGS[found[0]]
                nested.append(Open((word,), closing))
            case "record":
                names = self.line.name(found["class"]), self.line.name(found["name"])
                nested.append(Open(("record", *names), ")"))
            case "object":
                of = self.line.name(found["of"])
                self.line.put("object", found["number"], of)
            case "quote":
                name = self.line.name(found["quote"])
                self.line.put("quote", name)
            case "sign":
                self.line.put("char", str(ord(found["sign"])))
            case "char":
                self.line.put("char", found["char"])
            case "none":
                self.line.put("map", "0")

    def go_on(self, nested):
        """Reads what stands behind a part of the innermost, or before its first."""
        inner = nested[-1]
        if self.takes(inner.closing):
            nested.pop()
            self.line.put(*(inner.closed() or self.fail()))
        elif inner.closing == "}" and inner.parts and self.takes(" |-> "):
            inner.pairs += 1
            # A pair of the key and of what begins here, behind which it is closed.
            nested.append(Open(("tuple",), "", 2))
            self.begin(nested)
        else:
            if inner.parts:
                self.expect(", ")
            inner.parts += 1
            self.begin(nested)

    def slot(self):
        if self.takes("?"):
            self.line.put("unset")
        else:
            self.value()
            self.line.put("held")

    def slots(self):
        self.expect("[")
        self.listed(self.slot, "]")

    def slot_behind(self, sign):
        """Reads the sign and a slot, which is unset where there is no sign."""
        if self.takes(sign):
            self.slot()
        else:
            self.line.put("unset")

    # Deeds: each function puts what its instruction takes, and returns the operands.

    def variable(self):
        owner = self.name()
        self.expect("`")
        return owner, self.name()

    def operation(self):
        self.expect(" ")
        variable = self.variable()
        self.expect("/")
        return *variable, self.number()

    def made(self):
        self.expect(" ")
        owner = self.name()
        self.expect(" [")
        return owner, self.listed(self.slot, "]")

    def act_fault(self):
        operation = self.operation()
        self.expect(" ")
        return *operation, self.number()

    def read(self):
        self.expect(" ")
        variable = self.variable()
        self.slot_behind(" = ")
        return variable

    def write(self):
        self.expect(" ")
        count = 1
        self.one_write()
        while self.takes(", "):
            self.one_write()
            count += 1
        return str(count), self.refused("105")

    def one_write(self):
        variable = self.variable()
        self.expect(" = ")
        self.value()
        self.line.put("write", *variable)

    def refused(self, number):
        return "1" if self.takes(f" refused {number}") else "0"

    def start(self):
        return (self.refused("120"),)

    def print(self):
        self.expect(" [")
        return (self.listed(self.value, "]"),)

    def host(self):
        operation = self.operation()
        self.expect(" (")
        count = self.listed(self.value, ")")
        self.host_answer()
        return *operation, count

    def host_answer(self):
        if self.takes(" = "):
            self.value()
            self.line.put("answer", "given")
        else:
            self.takes(" refused")
            self.line.put("answer", "host-refused")

    def time(self):
        return (self.number() if self.takes(" ") else "0",)

    def tick(self):
        return ()

    def release(self):
        self.expect(" ")
        return (self.number(),)

    def over(self):
        self.slot_behind(" ")
        return ()

    def failure(self):
        self.expect(" ")
        number = self.number()
        if self.begins(" spec ", " expr "):
            self.line.put("unset")
        else:
            self.expect(" ")
            self.slot()
        self.expect(" ")
        return number, *self.place_in_part()

    def deed(self):
        word = self.found(KIND)[0]
        if word not in DEEDS:
            self.fail()
        self.line.put("deed", word, *DEEDS[word](self))

    # Entries, questions and answers.

    def object_and_deed(self):
        number = self.number()
        self.expect(" ")
        self.deed()
        return number

    def entry(self):
        thread = self.thread()
        self.expect(" ")
        self.line.put("entry", *thread, self.object_and_deed())

    def question(self):
        self.line.put("ask", self.object_and_deed())

    def answer(self):
        word = self.found(KIND)[0]
        match word:
            case "done" | "refused":
                self.line.put("answer", word)
            case "object" | "inner" | "ticks":
                self.expect(" ")
                self.line.put("answer", word, self.number())
            case "slot":
                self.expect(" ")
                self.slot()
                self.line.put("answer", "slot")
            case "host":
                self.host_answer()
            case _:
                self.fail()

    # Patterns.

    def pattern(self):
        self.pattern_node()
        while self.takes(" "):
            self.pattern_node()

    def pattern_node(self):
        kind = self.found(PATTERN_NODE)[0].strip()
        if kind not in PATTERN_NODES:
            self.fail()
        self.line.put("pattern", *PATTERN_NODES[kind](self))

    def literal(self):
        """Reads a value without parts."""
        found = self.found(VALUE)
        if found["int"] or found["word"]:
            return "literal", *(["int"] if found["int"] else []), found[0]
        if found["sign"] or found["char"]:
            return "literal", "char", found["char"] or str(ord(found["sign"]))
        if not found["quote"]:
            self.fail()
        return "literal", "quote", self.line.name(found["quote"])

    def characters(self):
        """Reads the characters of a text, up to its second sign."""
        text = self.found(TEXT)[0][:-1]
        return "literal", "text", str(len(text)), *(str(ord(it)) for it in text)

    def record(self):
        name = self.name()
        if self.takes("`"):
            return "record-of", name, self.name(), *self.parts()
        return "record", name, *self.parts()

    def record_types(self):
        self.expect("in ")
        self.line.put("scope", self.name())
        sign = ": "
        while self.place < len(self.text):
            self.expect(sign)
            self.record_type()
            sign = ", "

    def record_type(self):
        owner, name = self.variable()
        if self.takes(" = "):
            self.line.put("same-type", owner, name, *self.other_type())
            return
        self.expect("(")
        fields = []
        self.listed(lambda: fields.append(self.name()), ")")
        self.line.put("record-type", owner, name, str(len(fields)), *fields)

    def other_type(self):
        """Reads the name of a type, perhaps in brackets and behind a class, and returns the words that say it."""
        if self.takes("("):
            words = ("bracketed", *self.type_name())
            self.expect(")")
            return words
        return "plain", *self.type_name()

    def type_name(self):
        name = self.name()
        return ("of", name, self.name()) if self.takes("`") else ("alone", name)

    def parts(self):
        self.expect(" ")
        return (self.number(),)


DEEDS = {
    "class": Reader.made,
    "new": Reader.made,
    "req": Reader.operation,
    "act": Reader.operation,
    "act-fault": Reader.act_fault,
    "fin": Reader.operation,
    "read": Reader.read,
    "write": Reader.write,
    "start": Reader.start,
    "print": Reader.print,
    "host": Reader.host,
    "time": Reader.time,
    "tick": Reader.tick,
    "release": Reader.release,
    "end": Reader.over,
    "fail": Reader.failure,
}
PATTERN_NODES = {
    "": Reader.literal,
    '"': Reader.characters,
    "-": lambda _: ("any",),
    "given": lambda _: ("given",),
    "{|->}": lambda _: ("empty-map",),
    "|->": lambda _: ("maplet",),
    "name": lambda it: ("name", it.name()),
    "set": lambda it: ("set", it.number()),
    "seq": lambda it: ("seq", it.number()),
    "tuple": lambda it: ("tuple", it.number()),
    "map": lambda it: ("map", it.number()),
    "^": lambda it: ("join", it.number()),
    "record": Reader.record,
}


def read(line, text, method):
    """Reads a text, whole, and returns what the method of Reader does."""
    reader = Reader(line, text)
    result = method(reader)
    reader.end()
    return result


def read_each(line, text, method):
    """Reads what has `; ` between each two; in the empty text there is none."""
    for it in text.split("; ") if text else ():
        read(line, it, method)
