"""What the driver of crates/rows is asked, in words, and what it answers.

The rows of `rows/*.rows` are written to be read. The driver takes less: a line of words, which it obeys one after the
other. `words_for` puts a request of a row into words, and `notation_of`, of `shown.py`, puts an answer back.

**The notation of requests.** A request is a word and what the word asks for. REQUESTS at the end has these words, and
the function of each begins with how its request is written. What it answers says the module of the driver that does.
Parts have ` %| ` between each two, and behind ` %|` at the end stands an empty part. In a text `%41` stands for a byte
by its two hexadecimal digits. Entries, questions and answers have `; ` between each two.

    name        a word of letters, digits and _; or #7, the name of number 7
    value       one of: nil, true, false, -5, 'a', char(0), <Red>, C#3 (object 3 of class C), mk_token(1), mk_(1, 2),
                mk_C`T(1), [1, 2], {1, 2}, {1 |-> 2}, {|->}. A set and a map have their parts in order, however written
    slot        ?, which is unset, or a value
    thread      main, clock, t3 (of object 3) or r3.0 (a release of it, before which none came)
    entry       a thread, the number of an object, and a deed, as in main 2 read C`x = 1
    question    the number of an object, and the deed that it leads to, in which what answers it may be left out, as in
                2 read C`x
    answer      one of: done, object 2, slot ?, refused, inner 103, host = 1, host refused, ticks 41

These are the deeds, as the log writes them:

    class C [1, ?]          new C [1, ?]            read C`x = 1            write C`x = 1, C`y = 2
    req C`f/0               act C`f/0               fin C`f/0               write C`x = 1 refused 105
    start                   start refused 120       print [1, 2]            act-fault C`f/0 103
    host C`f/1 (1) = 2      host C`f/1 (1) refused  time 41                 tick
    release 0               end                     end 1                   fail 101 expr 1:41
                                                                            fail 113 1 spec 6:36

A pattern is written as its nodes, which stand behind their parts, with one blank between each two:

    -                       any value
    name a                  a name
    7   'a'   <Red>   nil   a literal, as a value of no parts
    "abc"                   a literal, a text of characters of ASCII but "
    given                   a bracketed expression, the value of which the request gives
    set 2                   {p, q} of the two patterns before it; seq 2 is [p, q], tuple 2 mk_(p, q), ^ 2 is p ^ q
    record T 2              mk_T(p, q) of the two patterns before it; record C`T 2 likewise, with the class of the type
    |->                     the pair p |-> q of the two patterns before it; map 1 is the map pattern of one pair
    {|->}                   the pattern of the empty map

**Words.** They have one blank between each two. The first says what is asked for, then come its own operands, and then
instructions, each with its operands. The driver keeps what it has made so far, of each kind by itself, and an
instruction takes the last of it and leaves what it makes. At the end there is what the request needs, in the order of
the notation. Each operand is one word, or several, as follows:

    N, K, INT      a decimal number; INT may have a sign and has 128 bits, K says of how many an instruction takes
    TEXT           a dot and the bytes of a text, of which all but the signs of ASCII without % are written as %0A
    NAME           which of the names that the line has declared, counted from 0
    PART           spec or expr
    SPOT, PLACE    LINE COLUMN, PART LINE COLUMN
    THREAD         main, clock, of N for t3, or release N N for r3.0
    VAR, OP        NAME NAME, NAME NAME N: the class, the variable or the operation, and how many parameters that has

These are the instructions:

    name TEXT   number N               declares the name of this text, which the driver adds where it is new, or number
    nil   true   false   int INT       a value
    char N   quote NAME                a value: the character of this number, the quote of this name
    object N NAME                      a value: object N of this class
    token                              the token of the last value
    tuple K   seq K                    of the last K values, in their order
    set K                              of the last K values, which it has in the canonical order, each once
    map K                              of the last K values, each of which is a tuple of a key and its value
    record NAME NAME K                 of the last K values; the names of its class and its own
    unset   held                       a slot: one without a value, one with the last value
    write VAR                          the variable gets the last value
    deed class NAME K   deed new NAME K              a deed, with the last K slots
    deed req OP   deed act OP   deed fin OP
    deed act-fault OP N                N is the number of the fault
    deed read VAR                      with the last slot
    deed write K N                     of the last K writes; N is 1 where they were refused, or 0
    deed start N                       N is 1 where it was refused, or 0
    deed print K                       of the last K values
    deed host OP K                     of the last K values, with the last answer, which is of a host function
    deed time N   deed tick   deed release N
    deed end                           with the last slot
    deed fail N PLACE                  of fault N, with the last slot
    entry THREAD N                     the last deed, by this thread on object N
    ask N                              the question that the last deed on object N answers
    answer done   answer object N   answer refused   answer inner N   answer ticks N
    answer slot                        with the last slot
    answer given   answer host-refused   of a host function: the last value, or none
    pattern any   pattern name NAME   pattern given   pattern empty-map
    pattern literal int INT            pattern literal char N            pattern literal quote NAME
    pattern literal true   pattern literal false   pattern literal nil
    pattern literal text K N ..        of K characters of these numbers
    pattern set K   pattern seq K   pattern tuple K   pattern join K
                                       of the last K patterns
    pattern record NAME K              of the last K patterns; the name of its type
    pattern record-of NAME NAME K      likewise; the names of its class and its own
    pattern maplet                     a pair of the last two patterns
    pattern map K                      of the last K pairs
    scope NAME                         the class in which the names of types are written
    record-type NAME NAME K NAME ..    a record type: the names of its class and its own, and of its K fields
    same-type NAME NAME plain alone NAME                 likewise, with a type above it that it is; `bracketed` where that
                                       stands in brackets, and `of NAME` for `alone` where it stands behind its class

A line declares a name once, where the notation first has it.

**Answers.** They are as in the rows, but for what is shown as by Rust's `{:?}`: a value, a slot, an entry, an answer, a
place or a thread, between two tabs. No tab stands elsewhere. A name is shown by its number, as `Name(5)`. So an answer to
instructions has a last tab, and behind it the texts of all names in order, each behind a blank: there are names where the
tabs make an even number of pieces. A line that the driver cannot read is answered by `unreadable`.
"""
import re

from notation import QUOTED, BadRequest, Line, Reader, read, read_each, word_of
from shown import notation_of

__all__ = ["BadRequest", "notation_of", "words_for"]

MANY = 1_000_000
# What may stand behind the text of a request on a table of classes.
MEMBER, MAYBE = re.compile(r"[\w']+"), re.compile(r"-|[\w']+")
FLAGS = re.compile(r"-|[a-z]+(,[a-z]+)*")
COUNT, LEVEL = re.compile(r"[0-9]+"), re.compile(r"private|protected|public")
OPERATION = [MEMBER, MEMBER, COUNT]


def words_for(request):
    """Returns the words of a request, as a line without its line feed."""
    word, _, asked = request.partition(" ")
    if word not in REQUESTS:
        raise BadRequest(f"no request begins with '{word[:QUOTED]}'")
    line = Line(word)
    REQUESTS[word](line, asked)
    return " ".join(line.words)


def parts_of(asked, least, most):
    """Returns the parts of what is asked for. Behind ` %|` at the end stands an empty one."""
    parts = asked.removesuffix(" %|").split(" %| ") + [""] * asked.endswith(" %|")
    if not least <= len(parts) <= most:
        raise BadRequest(f"a request of this kind has not {len(parts)} parts")
    return parts


def text_or_none(text):
    return "" if text == "none" else text


# Names, numbers and texts.


def number(line, asked):
    """take N, refusal N, fault N"""
    line.put(read(line, asked, Reader.number))


def names(line, asked):
    """names WORD WORD .."""
    line.put(*(word_of(read(line, it, Reader.word)) for it in asked.split(" ")))


def name(line, asked):
    """name N WORD WORD .."""
    index, _, words = asked.partition(" ")
    number(line, index)
    names(line, words)


def lexed(line, asked):
    """lex PART TEXT, places, type, pattern, expression and statement likewise"""
    part, _, text = asked.partition(" ")
    line.put(read(line, part, Reader.part), word_of(text))


def text(line, asked):
    """specification TEXT, classes TEXT"""
    line.put(word_of(asked))


def cuts(line, asked):
    """cuts KIND TEXT, where the kind is statement or specification"""
    kind, _, text = asked.partition(" ")
    line.put(kind, word_of(text))


# What is asked of the table of the classes of a text, and what each word of it is: a name, one or `-` for none, a number of
# parameters, or a level of access.
ASKED = {
    "table": [],
    "all-classes": [],
    **dict.fromkeys(["ancestors", "layout", "statics", "op-names", "number", "class-place"], [MEMBER]),
    **dict.fromkeys(["find-op", "find-fn", "op-place", "fn-place"], OPERATION),
    **dict.fromkeys(["find-value", "find-var", "value-place", "var-place", "kind"], [MEMBER, MEMBER]),
    "find-type": [MEMBER, MAYBE, MEMBER],
    "visible": [MAYBE, MEMBER, LEVEL],
    "reached": [MAYBE, *OPERATION],
    "hosted": OPERATION,
}


def table(line, asked):
    """table TEXT, all-classes TEXT, ancestors TEXT %| C, layout, statics, op-names, number and class-place likewise,
    find-op TEXT %| C f 1, find-fn, op-place and fn-place likewise, find-value TEXT %| C v, find-var, value-place and
    var-place likewise, find-type TEXT %| SCOPE CLASS-OR-- NAME, kind TEXT %| C A, visible TEXT %| FROM-OR-- OWNER LEVEL,
    reached TEXT %| FROM-OR-- C f 1"""
    [word] = line.words
    text, *others = parts_of(asked, 1, 2)
    line.words = ["table", word, word_of(text)]
    put_asked(line, " ".join(others), ASKED[word])


def hosted(line, asked):
    """hosted TEXT %| C f 1 %| C f 1; C f 2 ..; or none behind the last sign"""
    text, operation, others = parts_of(asked, 3, 3)
    rows = others.split("; ") if others else []
    line.words = ["table", "hosted", word_of(text)]
    put_asked(line, operation, OPERATION)
    line.put(str(len(rows)))
    for it in rows:
        put_asked(line, it, OPERATION)


def check(line, asked):
    """check TEXT-OR-none %| CLASS-OR-- FLAGS-OR-- %| EXPR, where the flags, with a comma between each two, say what there is at the
    place of the expression, and what may be reached there: `row_checks` says which there are"""
    text, place, expr = parts_of(asked, 3, 3)
    line.put(word_of(text_or_none(text)))
    put_asked(line, place, [MAYBE, FLAGS])
    line.put(word_of(expr))


def put_asked(line, asked, kinds):
    words = asked.split()
    if len(words) != len(kinds) or not all(kind.fullmatch(it) for kind, it in zip(kinds, words)):
        raise BadRequest(f"'{asked[:QUOTED]}' is not what this request wants behind its text")
    line.put(*words)


def time(line, asked):
    """time set KIND N, time lex KIND N, time text KIND N, time operator KIND N, time bind KIND N,
    time grammar KIND N, time statement KIND N, time specification KIND N, time table KIND N, time look-ups KIND N"""
    line.put(*asked.split(" "))


# Values.


def values(line, asked):
    """order V %| V, rising V %| V .., apart V %| V .., same V %| V, taken V, size V, value V, part V %| V %| V"""
    for it in parts_of(asked, 1, MANY):
        read(line, it, Reader.value)


def operator(line, asked):
    """unary SIGN V, binary SIGN V %| V, unary-size and binary-size likewise"""
    sign, _, operands = asked.partition(" ")
    line.put(sign)
    values(line, operands)


def compare(line, asked):
    """compare operators SEED COUNT"""
    line.put(*asked.split(" "))


def contents(line, asked, kind):
    """Puts the values of one value, which has to be of this kind: all its words but those of its own instruction."""
    read(line, asked, Reader.value)
    if kind not in line.words[-2:-1]:
        raise BadRequest(f"'{asked[:QUOTED]}' is a value of another kind than this request wants")
    del line.words[-2:]


def items(line, asked):
    """list, set, set-size and insertion [V, ..], map, map-size and insertion-of-pairs [mk_(V, V), ..]"""
    contents(line, asked, "seq")


def pairs(line, asked):
    """pairs {V |-> V, ..}"""
    contents(line, asked, "map")


def slots(line, asked):
    """slots [S, ..]"""
    read(line, asked, Reader.slots)


def slot(line, asked):
    """slot TEXT %| S %| S .."""
    before, *others = parts_of(asked, 2, MANY)
    line.put(word_of(before))
    for it in others:
        read(line, it, Reader.slot)


# Patterns.


def bind(line, asked):
    """bind V %| PATTERN, bind V %| PATTERN %| V .., where these V are the values of its bracketed expressions

    Before it may stand the types that there are, and the class in which names of types are written, as in
    `bind in C: C`T(a, b), D`T(a), C`S = T, C`R = (D`T) %| V %| PATTERN`. A type that is another stands behind it, else it is
    not found. Without them there are none.
    """
    if asked.startswith("in "):
        types, _, asked = asked.partition(" %| ")
        read(line, types, Reader.record_types)
    value, pattern, *given = parts_of(asked, 2, MANY)
    for it in [*given, value]:
        read(line, it, Reader.value)
    read(line, pattern, Reader.pattern)


def bindings(line, asked):
    """bindings SEED COUNT"""
    line.put(*asked.split(" "))


# Entries, questions and answers.


def entries(line, asked):
    """entries ENTRIES"""
    read_each(line, asked, Reader.entry)


def answers(line, asked):
    """answers ANSWERS"""
    read_each(line, asked, Reader.answer)


def made(line, asked):
    """made THREAD %| QUESTION %| ANSWER"""
    thread, question, answer = parts_of(asked, 3, 3)
    line.put(*read(line, thread, Reader.thread))
    read(line, question, Reader.question)
    read(line, answer, Reader.answer)


def entries_of(line, asked):
    """of N %| ENTRIES, of THREAD %| ENTRIES"""
    whose, others = parts_of(asked, 2, 2)
    if whose[:1].isalpha():
        line.words = ["of-thread", *read(line, whose, Reader.thread)]
    else:
        line.words = ["of-object", read(line, whose, Reader.number)]
    entries(line, others)


def threads(line, asked):
    """is THREAD %| THREAD"""
    for it in parts_of(asked, 2, 2):
        line.put(*read(line, it, Reader.thread))


def thread(line, asked):
    """own THREAD"""
    line.put(*read(line, asked, Reader.thread))


def same_entry(line, asked):
    """same-entry ENTRY %| ENTRY"""
    for it in parts_of(asked, 2, 2):
        read(line, it, Reader.entry)


def same_question(line, asked):
    """same-question QUESTION %| QUESTION"""
    for it in parts_of(asked, 2, 2):
        read(line, it, Reader.question)


def same_deed(line, asked):
    """same-deed N DEED %| N DEED; the objects are left out"""
    for it in parts_of(asked, 2, 2):
        read(line, it, Reader.object_and_deed)


def log_line(line, asked):
    """line K ENTRY"""
    count, _, entry = asked.partition(" ")
    number(line, count)
    read(line, entry, Reader.entry)


def report(line, asked):
    """report TEXT %| ENTRIES, report TEXT %| no log %| ENTRIES"""
    last, *log, others = parts_of(asked, 2, 3)
    if log not in ([], ["no log"]):
        raise BadRequest(f"'{log[0][:QUOTED]}' stands where only 'no log' may")
    line.put(word_of(last), "0" if log else "1")
    entries(line, others)


REQUESTS = {
    **dict.fromkeys(["take", "refusal", "fault"], number),
    "names": names,
    "name": name,
    **dict.fromkeys(["lex", "places", "type", "pattern", "expression", "statement"], lexed),
    **dict.fromkeys(["specification", "classes"], text),
    "cuts": cuts,
    **dict.fromkeys(ASKED, table),
    "hosted": hosted,
    "check": check,
    "time": time,
    **dict.fromkeys(["order", "rising", "apart", "same", "taken", "size", "value", "part"], values),
    **dict.fromkeys(["unary", "binary", "unary-size", "binary-size"], operator),
    "compare": compare,
    **dict.fromkeys(["list", "set", "set-size", "insertion", "map", "map-size", "insertion-of-pairs"], items),
    "pairs": pairs,
    "slots": slots,
    "slot": slot,
    "bind": bind,
    "bindings": bindings,
    "entries": entries,
    "answers": answers,
    "made": made,
    "of": entries_of,
    "is": threads,
    "own": thread,
    "same-entry": same_entry,
    "same-question": same_question,
    "same-deed": same_deed,
    "line": log_line,
    "report": report,
}
