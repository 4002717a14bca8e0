"""Answers of the driver, put back into the notation of rows. `driver.py` says what both look like.

What is shown, as by Rust's `{:?}`, is first read into data. What has a name, as `Held(..)` or `Entry { .. }`, is a
pair of the name and a list of the parts; a bare name has no parts, and `(..)` an empty name. `[..]` is a list, numbers,
texts, `true` and `false` are themselves, and `Name(5)` is the text of name 5. The names of fields are not kept.

Then each kind of node has a function that writes it. It returns pieces: texts, and pairs of a function and a node that
is still to be written. So nodes may be as deep as they like.
"""
import re
from urllib.parse import unquote

PIECE = re.compile(
    r"""(?P<comma>,[ ])? (?:\w+:[ ])?
        (?: (?P<open>\w+[ ]\{[ ] | \w*\( | \[) | (?P<number>-?[0-9]+)
        | (?P<text>'(?:\\u\{[0-9a-f]+\}|\\.|[^\\])' | "(?:\\.|[^\\"])*") | (?P<word>[A-Za-z]\w*) )
    | (?P<close>[ ]\}|[)\]])""",
    re.VERBOSE,
)
CLOSINGS = {"(": ")", "[": "]", "{": " }"}
ESCAPE = re.compile(r"\\(?:u\{([0-9a-f]+)\}|(.))")
ESCAPED = {"n": "\n", "r": "\r", "t": "\t", "0": "\0"}
TRUTHS = {"true": True, "false": False}
FAULTS = """
    Overflow DivideByZero TypeFault TypeInvariant InstanceInvariant Pre Post NoMatch NotInDomain EmptyOperand
    MapConflict Undefined UncaughtExit NotUnique NotSet SizeLimit StepLimit GuardFault NoThread StartedTwice
    HostRefused NoReturn ExponentRange
""".split()
FIRST_FAULT = 101


class BadAnswer(ValueError):
    """What should be shown as by `{:?}` is not."""


def notation_of(answer):
    """Returns the answer in the notation of rows, or as it came where it cannot be put back."""
    pieces, names = answer.split("\t"), []
    if len(pieces) % 2 == 0:
        names = [unquote(it) for it in pieces.pop().split(" ")[1:]]
    try:
        pieces[1::2] = [notation_of_shown(it, names) for it in pieces[1::2]]
    except (AttributeError, LookupError, TypeError, ValueError):
        return answer
    return "".join(pieces)


def notation_of_shown(text, names):
    node = data_of(text, names)
    return written(SHOWN[node[0]], node)


def data_of(text, names):
    """Reads what is shown, whole."""
    nested, read = [("", "", [])], 0
    while read < len(text):
        found = PIECE.match(text, read)
        if not found:
            raise BadAnswer(f"nothing that is shown goes on with '{text[read:]}'")
        add(nested, found, names)
        read = found.end()
    [(_, _, [node])] = nested
    return node


def add(nested, found, names):
    """Adds a piece to what is not closed yet, the innermost last: each has its name, its closing sign and its parts."""
    kind, text, (head, closing, parts) = found.lastgroup, found[found.lastgroup], nested[-1]
    if kind == "close":
        if text != closing:
            raise BadAnswer(f"'{text}' closes nothing")
        nested.pop()
        nested[-1][-1].append(closed(head, closing, parts, names))
        return
    if bool(found["comma"]) != bool(parts):
        raise BadAnswer(f"a comma is missing at '{text}', or has nothing before it")
    if kind == "open":
        nested.append((text.rstrip("([{ "), CLOSINGS[text.strip()[-1]], []))
    else:
        parts.append(leaf(kind, text))


def closed(head, closing, parts, names):
    if closing == "]":
        return parts
    if head == "Name" and len(parts) == 1:
        return names[parts[0]] if parts[0] < len(names) else ""
    return head, parts


def leaf(kind, text):
    if kind == "number":
        return int(text)
    if kind == "text":
        return ESCAPE.sub(unescaped, text[1:-1])
    return TRUTHS.get(text, (text, []))


def unescaped(found):
    return chr(int(found[1], 16)) if found[1] else ESCAPED.get(found[2], found[2])


def written(write, node):
    """Returns the text of a node, with all that is in it."""
    pieces, texts = [(write, node)], []
    while pieces:
        piece = pieces.pop()
        if isinstance(piece, str):
            texts.append(piece)
        else:
            write, node = piece
            pieces.extend(reversed(write(node)))
    return "".join(texts)


def by_name(table):
    """Returns the function that writes a node by the function which the table has for its name."""

    def write(node):
        head, parts = node
        return table[head](*parts)

    return write


def listed(begin, nodes, end, write=None):
    """Returns the pieces of a list, whose items are values where nothing else is said."""
    pieces = [piece for it in nodes for piece in (", ", (write or value, it))]
    return [begin, *pieces[1:], end]


def items(node):
    """Returns the items of a node that has nothing but a list."""
    _, [nodes] = node
    return nodes


# Values and slots.


def value(node):
    """A value as its node, kept alone or shared alike: what is asked for is what the value is, not who else has it."""
    _, [(_, [inner])] = node
    return value_node(inner)


def pair(node):
    _, [key, held] = node
    return [(value, key), " |-> ", (value, held)]


def character(sign):
    """A letter or digit of ASCII as itself, any other character by its number."""
    return f"'{sign}'" if sign.isascii() and sign.isalnum() else f"char({ord(sign)})"


VALUES = {
    "Nil": lambda: ["nil"],
    "Bool": lambda truth: ["true" if truth else "false"],
    "Int": lambda number: [str(number)],
    "Char": lambda sign: [character(sign)],
    "Quote": lambda name: [f"<{name}>"],
    "Token": lambda inner: listed("mk_token(", [inner], ")"),
    "Tuple": lambda nodes: listed("mk_(", nodes, ")"),
    "Rec": lambda owner, name, fields: listed(f"mk_{owner}`{name}(", fields, ")"),
    "Seq": lambda nodes: listed("[", nodes, "]"),
    "Set": lambda nodes: listed("{", nodes, "}"),
    "Map": lambda pairs: listed("{", pairs, "}", pair) if pairs else ["{|->}"],
    "Object": lambda number, owner: [f"{owner}#{number}"],
}
value_node = by_name(VALUES)
SLOTS = {"Unset": lambda: ["?"], "Held": lambda held: [(value, held)]}
slot = by_name(SLOTS)


# Places, threads, and members of classes.


def spot(node):
    _, [_, line, column] = node
    return f"{line}:{column}"


def place(node):
    _, [(part, _), _, _] = node
    return [f"{part.lower()} {spot(node)}"]


def variable(node):
    _, [owner, name] = node
    return f"{owner}`{name}"


def operation(node):
    _, [owner, name, arity] = node
    return f"{owner}`{name}/{arity}"


THREADS = {
    "Main": lambda: ["main"],
    "Clock": lambda: ["clock"],
    "Of": lambda number: [f"t{number}"],
    "Release": lambda number, before: [f"r{number}.{before}"],
}
thread = by_name(THREADS)


# Entries and answers.


def entry(node):
    _, [by, number, done] = node
    return [(thread, by), f" {number} ", (deed, done)]


def one_write(node):
    _, [target, held] = node
    return [f"{variable(target)} = ", (value, held)]


def spaced(held):
    """A value behind a blank, or nothing."""
    return [" ", (slot, held)] if held != ("Unset", []) else []


def refusal(is_refused, number):
    return f" refused {number}" if is_refused else ""


def fault_number(fault):
    name, _ = fault
    return FIRST_FAULT + FAULTS.index(name)


HOST_ANSWERS = {"Given": lambda held: [" = ", (value, held)], "Refused": lambda: [" refused"]}
host_answer = by_name(HOST_ANSWERS)

DEEDS = {
    "Class": lambda owner, held: listed(f"class {owner} [", items(held), "]", slot),
    "New": lambda owner, held: listed(f"new {owner} [", items(held), "]", slot),
    "Req": lambda called: [f"req {operation(called)}"],
    "Act": lambda called: [f"act {operation(called)}"],
    "ActFault": lambda called, inner: [f"act-fault {operation(called)} {inner}"],
    "Fin": lambda called: [f"fin {operation(called)}"],
    "Read": lambda source, held: [f"read {variable(source)} = ", (slot, held)],
    "Write": lambda writes, is_refused: listed("write ", items(writes), refusal(is_refused, 105), one_write),
    "Start": lambda is_refused: ["start" + refusal(is_refused, 120)],
    "Print": lambda text: listed("print [", items(text), "]"),
    "Host": lambda called, given, answer: [
        *listed(f"host {operation(called)} (", items(given), ")"),
        (host_answer, answer),
    ],
    "Time": lambda ticks: [f"time {ticks}"],
    "End": lambda held: ["end", *spaced(held)],
    "Fail": lambda fault, held, where: [f"fail {fault_number(fault)}", *spaced(held), " ", (place, where)],
    "Tick": lambda: ["tick"],
    "Release": lambda before: [f"release {before}"],
}
deed = by_name(DEEDS)

ANSWERS = {
    "Done": lambda: ["done"],
    "Object": lambda number: [f"object {number}"],
    "Slot": lambda held: ["slot ", (slot, held)],
    "Refused": lambda: ["refused"],
    "Inner": lambda fault: [f"inner {fault}"],
    "Host": lambda answer: ["host", (host_answer, answer)],
    "Ticks": lambda ticks: [f"ticks {ticks}"],
}


# What an answer shows as a whole. An object is an answer here: as a value it stands in `Value { .. }`.
SHOWN = {
    "Value": value,
    "Entry": entry,
    "Place": place,
    **dict.fromkeys(THREADS, thread),
    **dict.fromkeys(SLOTS, slot),
    **dict.fromkeys(ANSWERS, by_name(ANSWERS)),
}
