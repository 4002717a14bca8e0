"""The forms of the cases that examples/check runs.

A case says on which words and which standard input the program runs, what it must print, and with which status it must
end. It is a file, a row of a table, a folder or an example of a page. What a second program, the driver, must answer is
a row of its own kind. A name is there once: where two cases have one name, or a case that of a table, the second is no
case.

**A file, `cases/NAME.vdmpp`.** The text above its first line that begins with `--!` is standard input, to the byte.
Then comes the footer, which the program never sees, and what stands below the footer is what standard output must get,
to the byte. The first line of the footer has the words, and each other line is one of those below it here:

    --! vdm run "new Counter().three()" --log
    --! status 3              the exit status that is wanted; where no line says it: 0
    --! no last line feed     the line feed before the footer is no part of standard input
    --! stdin blanks 4096     so many spaces come before the text
    --! stdin lines 1000      each line of the text that has a @ comes so many times, with the numbers 1 to 1000 for its
                              @, and with one more for its #
    --! stdin closed          no standard input is open
    --! stdin folder          standard input is a folder
    --! stdin endless         standard input gives bytes 0 without end
    --! stdout full           standard output is a full device
    --! stdout closed         no standard output is open
    --! stdout unread         standard output is a pipe that nobody reads

No text may stand above the last three lines of `stdin`, and nothing below those of `stdout`. The words stand behind
`vdm` as a shell reads them: quotes and backslashes count, nothing else does. Before they are read, each `%{N TEXT%}`
is written out as TEXT N times, where each @ in TEXT is the number of the turn, from 0.

**A row of a table, `tables/TOPIC.table`.** The program gets words and standard input, and standard output must get the
answer. A request begins in column 1, and below it stands its answer, each line behind four blanks. A line that begins
with `#` is a comment, and an empty line is nothing. A comment right above a request is one word, the row's name; a row
without one is named TOPIC:LINE, with the number of the line of its request. The first line that is no comment says what
each request of the table is; standard input gives nothing but where it is the TEXT or of so many BYTES:

    vdm run EXPR              the word behind `run`
    vdm WORDS                 `vdm` and words, as in the footer of a file
    vdm check TEXT            standard input, where `\n` is a line feed and `\\` a backslash
    vdm run WORD TEXT         standard input likewise; WORD is the word behind `run` itself, as in `vdm run 1 TEXT`
    vdm run EXPR %| TEXT      the word behind `run`, and behind ` %| ` standard input likewise
    vdm WORDS %| TEXT         `vdm` and words, and behind ` %| ` standard input likewise
    vdm check BYTES           how many bytes standard input gives, the first of `counter.vdmpp`

A line `let NAME = TEXT` in column 1, without an answer, defines a text for the lines below it. In requests and in such
texts each `${NAME}` is first replaced by the text of that name, and then each `%{N TEXT%}` is written out as in words,
where TEXT has no other in it; in answers `${NAME}` alone is.

The status that is wanted goes with the first word of the answer's last line: `result:` and `checked:` 0, `refused:` 1,
`usage:` 2, `fault:` 3, `read` 6.

**A folder, `cases/NAME/`,** where neither of these can hold the bytes. They are UTF-8, and no character of them is a
control, line feeds aside, or another that editors may change; no blank at the end of a line should matter, and no word
has a line feed. Each file of the folder may be missing:

    args      the words, one a line; no file, or an empty one: no words. A word is any bytes but line feed and 0
    word      one more word, the last: all bytes of this file, line feeds too
    stdin     what standard input gives; no file: nothing
    stdout    what standard output must get, to the byte; no file: nothing
    status    the exit status that is wanted; no file: 0
    setup     lines as in the footer of a file, from `stdin blanks` on, without the mark

**An example of a page, `docs/REFUSALS.md` or `docs/FAULTS.md`.** Each block of code of the page is calls, a model or a
table. Of calls each begins in a line as `$ ./vdm run '1 + 1' --log < examples/empty.vdmpp`, with words as in the footer
of a file, and the lines below it are the answer. A model begins with `class`; the calls below it, up to the next model,
read it as `m.vdmpp`. The first line of a table says what its requests are. The rows are named REFUSALS:LINE.

**A row of the driver, `rows/TOPIC.rows`.** The driver reads requests, a line each, and prints one line for each.
Requests, comments, empty lines and texts that are defined are as in a table, and an answer is one line. The row's name
is TOPIC:LINE. `driver.py`, which says what requests there are, puts the request into words for the driver, and what the
driver answers back into the notation of rows.
"""
import re
import shlex
from contextlib import contextmanager
from functools import partial
from itertools import takewhile
from pathlib import Path
from typing import NamedTuple

from driver import BadRequest, words_for

TOP = Path(__file__).resolve().parent.parent
COUNTER = TOP / "examples/counter.vdmpp"
PAGES = ("docs/REFUSALS.md", "docs/FAULTS.md")
FILES = {"args", "word", "stdin", "stdout", "status", "setup"}
STATUSES = {"result:": 0, "checked:": 0, "refused:": 1, "usage:": 2, "fault:": 3, "read": 6}
NO_LINE_FEED = "no last line feed"
INDENT = "    "
FENCE = "```"
CALL = "$ ./"
MODEL = "m.vdmpp"
# Above its first line that begins with the mark, the lines that do, and the rest.
PARTS = re.compile(r"((?:(?!--!).*\n)*)((?:--!.*(?:\n|\Z))+)((?s:.*))")
# Controls but the line feed, the no-break space, two further ends of lines, and the byte-order mark.
CHANGED = re.compile("[\x00-\x09\x0b-\x1f\x7f-\xa0\u2028\u2029\ufeff]")


class BadCase(Exception):
    """What is read is no case; the text says why."""


class Case:
    """What the program is run on, and what it must do."""

    def __init__(self, path, name, topic=None):
        self.path, self.name, self.topic = path, name, topic
        self.words, self.text, self.stdout, self.status = [], b"", b"", 0
        self.given, self.taken, self.count = None, None, 0

    @classmethod
    def read(cls, path):
        """Returns the cases that a path has."""
        return [cls(path)]

    @property
    def stdin(self):
        return more_of(self.text, self.given, self.count)

    def set_up(self, line):
        match line.split():
            case ["stdin", "blanks" | "lines" as kind, count] if self.given is None:
                self.given, self.count = kind, number_of(count)
            case ["stdin", "closed" | "folder" | "endless" as kind] if self.given is None:
                self.given = kind
            case ["stdout", "full" | "closed" | "unread" as kind] if self.taken is None:
                self.taken = kind
            case _:
                raise BadCase(f"'{line}' sets up nothing, or a stream for the second time")

    def must_be_seen(self):
        if self.text and self.given in ("closed", "folder", "endless"):
            raise BadCase(f"no text comes from standard input where it is '{self.given}'")
        if self.stdout and self.taken:
            raise BadCase(f"what standard output gets cannot be seen where it is '{self.taken}'")


class FileCase(Case):
    kind = "files"

    def __init__(self, path):
        super().__init__(path, path.stem)
        parts = PARTS.fullmatch(text_of(path))
        if not parts:
            raise BadCase("no line begins with --!")
        text, footer, answer = parts.groups()
        first, *others = (it.removeprefix("--!").strip() for it in footer.splitlines())
        self.words = words_of(first)
        for line in others:
            self.set_up(line)
        self.text, self.stdout = text_without(text, NO_LINE_FEED in others).encode(), answer.encode()
        self.must_be_seen()

    def set_up(self, line):
        if line.startswith("status "):
            self.status = number_of(line.removeprefix("status "))
        elif line != NO_LINE_FEED:
            super().set_up(line)


class FolderCase(Case):
    kind = "folders"

    def __init__(self, path):
        super().__init__(path, path.name)
        files = {it.name: it.read_bytes() for it in path.iterdir()}
        unknown = files.keys() - FILES
        if unknown:
            raise BadCase(f"no case has a file {min(unknown)}")
        self.words = lines_of(files.get("args", b""))
        if "word" in files:
            self.words.append(files["word"])
        self.text, self.stdout = files.get("stdin", b""), files.get("stdout", b"")
        self.status = number_of(files.get("status", b"0").decode())
        for line in files.get("setup", b"").decode().splitlines():
            self.set_up(line)
        self.must_be_seen()


class TableRow(Case):
    kind = "rows of tables"

    def __init__(self, path, asked_by, entry):
        if len(entry.above.split()) > 1:
            raise BadCase("the comment right above this request is no name, since it has more than one word")
        super().__init__(path, entry.above or line_name(path, entry), path.stem)
        (self.words, self.text), self.status = asked_by(entry.text), status_of(entry.answer)
        self.stdout = "".join(f"{it}\n" for it in entry.answer).encode()

    @classmethod
    def read(cls, path):
        return cls.rows_of(path, entries_of(lines_with_numbers(path)))

    @classmethod
    def rows_of(cls, path, entries):
        first, *others = entries or [Entry(1, "", "", [])]
        asked_by = None if first.answer else request_of(first.text)
        if not asked_by:
            raise BadCase(f"line {first.line} should be one of: {', '.join(REQUESTS)}, vdm run WORD TEXT")
        return rows_among(others, partial(cls, path, asked_by))


class PageRow(TableRow):
    @classmethod
    def read(cls, path):
        model, rows = None, []
        for lines in blocks_of(path):
            first = lines[0][1] if lines else ""
            if first.startswith("class"):
                model = "".join(f"{line}\n" for _, line in lines)
            elif first.startswith("$"):
                rows += rows_among(calls_of(lines), partial(cls, path, partial(by_call, model)))
            else:
                rows += cls.rows_of(path, entries_of(lines))
        return rows


class DriverRow:
    """The words that the driver is given, and the one line that it must answer, in the notation of rows."""

    kind = "rows of the driver"

    def __init__(self, path, entry):
        self.path, self.name, self.topic = path, line_name(path, entry), path.stem
        if len(entry.answer) != 1:
            raise BadCase(f"this request has {len(entry.answer)} lines of answer, and one is wanted")
        self.request, self.answer = asked(entry.text).encode(), entry.answer[0].encode()

    @classmethod
    def read(cls, path):
        return rows_among(entries_of(lines_with_numbers(path)), partial(cls, path))


class Broken:
    """What stands where a case should, and is none."""

    kind = "that cannot be run"

    def __init__(self, path, why):
        self.path, self.name, self.topic = path, path.stem, None
        self.why = f"{path.parent.name}/{path.name} cannot be run: {why}"


FORMS = {
    ("cases", ".vdmpp"): FileCase,
    ("tables", ".table"): TableRow,
    ("docs", ".md"): PageRow,
    ("rows", ".rows"): DriverRow,
}


class Entry(NamedTuple):
    """A line that begins in column 1, what the comment right above it says, and the lines of its answer."""

    line: int
    above: str
    text: str
    answer: list


@contextmanager
def told_at(line):
    try:
        yield
    except BadCase as error:
        raise BadCase(f"line {line}: {error}") from None


def all_cases(top):
    """Returns the cases of the three folders below this one and of the pages; what is no case is a Broken."""
    paths = [it for folder in ("cases", "tables", "rows") for it in sorted((top / folder).glob("[!.]*"))]
    return once_each([case for path in [*paths, *(top.parent / it for it in PAGES)] for case in cases_of(path)])


def cases_of(path):
    form = FORMS.get((path.parent.name, path.suffix))
    if path.is_dir():
        form = FolderCase if path.parent.name == "cases" else None
    try:
        if not form:
            raise BadCase(f"no file in {path.parent.name} ends in '{path.suffix}'")
        return form.read(path)
    except (BadCase, OSError, UnicodeDecodeError) as error:
        return [Broken(path, error)]


def once_each(cases):
    taken, kept = {it.topic for it in cases}, []
    for it in cases:
        if it.name in taken and not isinstance(it, Broken):
            it = Broken(it.path, f"there is another case, or a table, named {it.name}")
        taken.add(it.name)
        kept.append(it)
    return kept


def line_name(path, entry):
    return f"{path.stem}:{entry.line}"


def lines_with_numbers(path):
    return enumerate(text_of(path).splitlines(), 1)


def is_no_fence(numbered):
    return not numbered[1].startswith(FENCE)


def blocks_of(path):
    """Returns the blocks of code of a page, each as its lines with their numbers."""
    lines = lines_with_numbers(path)
    return [list(takewhile(is_no_fence, lines)) for it in lines if not is_no_fence(it)]


def calls_of(lines):
    """Returns the calls of a block that begins with one, with the answers."""
    entries = []
    for number, line in lines:
        if line.startswith("$"):
            entries.append(Entry(number, "", line, []))
        else:
            entries[-1].answer.append(line)
    return entries


def rows_among(entries, row):
    """Returns the row of each request. What `let` defines is put for its name in the requests and answers below it."""
    texts, rows = {}, []
    for it in entries:
        with told_at(it.line):
            if it.text.startswith("let ") and not it.answer:
                define(it.text, texts)
            else:
                answer = [named(line, texts) for line in it.answer]
                rows.append(row(it._replace(text=expanded(it.text, texts), answer=answer)))
    return rows


def entries_of(lines):
    """Returns what stands in column 1 of a table, comments aside, with the answers."""
    entries, above, is_open = [], "", False
    for number, line in lines:
        if line.startswith(INDENT) and is_open:
            entries[-1].answer.append(line.removeprefix(INDENT))
        elif line.startswith(" "):
            raise BadCase(f"line {number} neither begins in column 1 nor is an answer, with four blanks, to a request")
        elif line.startswith("#"):
            is_open = False
        elif line:
            entries.append(Entry(number, above, line, []))
            is_open = True
        above = line[1:].strip() if line.startswith("#") else ""
    return entries


def text_of(path):
    text = path.read_bytes().decode()
    changed = CHANGED.search(text)
    if changed:
        line = text.count("\n", 0, changed.start()) + 1
        raise BadCase(f"line {line} has the character U+{ord(changed[0]):04X}, which an editor may change")
    return text


def text_without(text, is_without):
    if is_without and not text:
        raise BadCase(f"there is no line feed for '{NO_LINE_FEED}'")
    return text[:-1] if is_without else text


def words_of(text):
    try:
        first, *words = shlex.split(written_out(text)) or [""]
    except ValueError as error:
        raise BadCase(f"a shell could not read '{text}': {error}") from None
    if first != "vdm":
        raise BadCase(f"'{text}' should have words behind the word vdm")
    return [it.encode() for it in words]


def by_expression(text):
    return [b"run", text.encode()], b""


def by_expression_over(text):
    expression, bar, over = text.partition(" %| ")
    if not bar:
        raise BadCase("an expression and its text have ' %| ' between them")
    return by_text([b"run", expression.encode()], over)


def by_words(text):
    return words_of(text), b""


def by_text(words, text):
    return words, re.sub(r"\\[n\\]", lambda found: "\n" if found[0] == "\\n" else "\\", text).encode()


def by_words_over(text):
    words, bar, over = text.partition(" %| ")
    if not bar:
        raise BadCase("words and their text have ' %| ' between them")
    return by_text(words_of(words), over)


def by_call(model, text):
    words, arrow, name = text.removeprefix(CALL).rpartition(" < ")
    if not (text.startswith(CALL) and arrow):
        raise BadCase(f"a call of a page is '{CALL}vdm WORDS < FILE'")
    if name != MODEL:
        return words_of(words), (TOP / name).read_bytes()
    if model is None:
        raise BadCase(f"no model stands above, so there is no {MODEL}")
    return words_of(words), model.encode()


def by_bytes(text):
    return [b"check"], COUNTER.read_bytes()[: number_of(text)]


REQUESTS = {
    "vdm run EXPR": by_expression,
    "vdm run EXPR %| TEXT": by_expression_over,
    "vdm WORDS": by_words,
    "vdm WORDS %| TEXT": by_words_over,
    "vdm check TEXT": partial(by_text, [b"check"]),
    "vdm check BYTES": by_bytes,
}


def request_of(line):
    """Returns what makes the words and standard input of a request, or None where this line says no such thing."""
    found = re.fullmatch(r"(vdm run .+) TEXT", line)
    words = words_of(found[1]) if found else []
    return partial(by_text, words) if len(words) == 2 else REQUESTS.get(line)


def status_of(answer):
    if not answer:
        raise BadCase("this request has no answer")
    first = answer[-1].partition(" ")[0]
    if first not in STATUSES:
        raise BadCase(f"no status goes with an answer whose last line begins with '{first}'")
    return STATUSES[first]


def define(line, texts):
    found = re.fullmatch(r"let ([\w-]+) = (.+)", line)
    if not found:
        raise BadCase("a text is defined by 'let NAME = TEXT'")
    texts[found[1]] = expanded(found[2], texts)


def asked(request):
    try:
        return words_for(request)
    except BadRequest as error:
        raise BadCase(f"the driver cannot be asked this: {error}") from None


def expanded(text, texts):
    return written_out(named(text, texts))


def named(text, texts):
    """Puts its text for each ${NAME}."""
    try:
        return re.sub(r"\$\{([^}]*)\}", lambda found: texts[found[1]], text)
    except KeyError as error:
        raise BadCase(f"no line above defines ${{{error.args[0]}}}") from None


def written_out(text):
    """Writes each %{N TEXT%} as TEXT so many times."""
    done = re.sub(r"%\{([0-9]+) (.*?)%\}", turns_of, text)
    if "%{" in done:
        raise BadCase("what begins with '%{' is not as in '%{3 TEXT%}', or stands in another")
    return done


def turns_of(found):
    return "".join(found[2].replace("@", str(turn)) for turn in range(int(found[1])))


def lines_of(text):
    """Returns the lines without their line feeds; the last need not have one."""
    lines = text.split(b"\n")
    return lines if lines[-1] else lines[:-1]


def more_of(text, kind, count):
    """Returns what standard input gives of a text that is set up as these say."""
    if kind == "blanks":
        return b" " * count + text
    if kind == "lines":
        return b"".join(it for line in text.splitlines(keepends=True) for it in repeated(line, count))
    return text


def repeated(line, count):
    if b"@" not in line:
        return [line]
    return [line.replace(b"@", b"%d" % number).replace(b"#", b"%d" % (number + 1)) for number in range(1, count + 1)]


def number_of(text):
    if not (text.strip().isascii() and text.strip().isdigit()):
        raise BadCase(f"'{text.strip()}' is no number")
    return int(text)
