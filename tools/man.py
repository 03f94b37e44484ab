#!/usr/bin/env python3
"""Makes the man pages pump_program(1), pumpd(8) and mow-cc(1): man.py [--check] FOLDER.

No page has a source of its own: the synopsis, the words, the list, the report, the statuses and the diagnostics are sections of
docs/FORMATS.md, what a program does is the HELP of its main.rt, and the page of `mow-cc` is the comment or docstring at its head.
A markdown table becomes a list of tagged paragraphs. The pages are written to FOLDER as NAME.SECTION, and their names to
standard output; without tools/mow-cc its page is passed over, which standard error says.

With --check each page is also read again: every line is a request with its arguments or text, what opens is closed, no word
of its sources is lacking in it, and HELP and docs/FORMATS.md name the same statuses. Status 0: the pages were written; 1: a source lacks
something, or a check failed; 2: wrong words.
"""
import os
import re
import sys

TOP = os.path.dirname(os.path.dirname(os.path.abspath(__file__)))
FORMATS = "docs/FORMATS.md"
UNITS = ("pumpd.socket", "pumpd@.service")
WIDEST_TAG = 60

# For each program: its section, what it is in a line, the section of FORMATS.md with its words, and the headings that show others.
PROGRAMS = {
    "pump_program": (
        "1",
        "preprocess C by a daemon that gets just the files that a source may include",
        "The words of the program",
        [
            ("LIST", "The compile list"),
            ("REPORT", "The report"),
            ("STANDARD ERROR", "Standard error"),
            ("TEXT", "The text"),
            ("DIAGNOSTICS", "Diagnostics"),
        ],
    ),
    "pumpd": (
        "8",
        "preprocess the C source of one request, over its files alone",
        "The daemon's program",
        [("FRAMES", "Frames")],
    ),
}
PAGES = ["pump_program(1)", "pumpd(8)", "mow-cc(1)"]


class Lacking(Exception):
    """What a source of the pages lacks."""


def read(path):
    try:
        with open(os.path.join(TOP, path), encoding="utf-8") as file:
            return file.read()
    except OSError as error:
        raise Lacking(f"{path}: {error.strerror}") from error


# The sources: markdown is a list of blocks, each a paragraph, the lines of a piece of code, or the rows of a table.


def cells_of(line):
    """The cells of a table's row."""
    return [cell.strip() for cell in re.split(r"(?<!\\)\|", line.strip())[1:-1]]


def block_of(lines):
    """The block that these lines are, which no empty line parts."""
    if all(line.startswith("    ") for line in lines):
        return "code", [line[4:] for line in lines]
    if lines[0].startswith("|"):
        return "table", [cells_of(line) for line in lines if not re.fullmatch(r"\|[-:| ]+\|", line)]
    return "paragraph", " ".join(line.strip() for line in lines)


def blocks_of(text):
    """The blocks of a text."""
    parts = re.split(r"\n[ \t]*\n", text.strip("\n"))
    return [block_of(part.strip("\n").split("\n")) for part in parts if part.strip()]


def sections_of(text):
    """The sections of a markdown text: the blocks under each heading."""
    parts = re.split(r"^## (.+)\n", text, flags=re.MULTILINE)
    return dict(zip(parts[1::2], map(blocks_of, parts[2::2])))


def section(sections, title):
    """The blocks of the section whose heading begins with a title."""
    for heading, blocks in sections.items():
        if heading.startswith(title):
            return blocks
    raise Lacking(f"{FORMATS} has no section '{title}'")


def help_of(name):
    """The paragraphs of a program's help: the usage, what it does, and the statuses."""
    path = f"crates/{name}/src/main.rt"
    found = re.search(r'^const HELP: &str = "((?:[^"\\]|\\.)*)";', read(path), re.MULTILINE | re.DOTALL)
    if not found:
        raise Lacking(f"{path} has no HELP")
    text = re.sub(r"\\(.)", lambda escape: {"n": "\n"}.get(escape[1], escape[1]), found[1])
    parts = [" ".join(part.split()) for part in text.split("\n\n")]
    if not parts[0].startswith("usage: ") or not parts[-1].startswith("status: "):
        raise Lacking(f"HELP of {path} doesn't begin with 'usage: ' and end with 'status: '")
    return parts[0].removeprefix("usage: "), parts[1:-1], parts[-1].removeprefix("status: ")


def head_of(path):
    """The docstring or the comment at the head of a script."""
    text = read(path)
    found = re.match(r'(?:#[^\n]*\n|\s*\n)*[rR]?"""(.*?)"""', text, re.DOTALL)
    if found:
        return found[1].rstrip()
    lines = re.match(r"#!.*\n((?:#.*\n)+)", text)
    if not lines:
        raise Lacking(f"{path} has no comment at its head")
    return "\n".join(re.sub(r"^# ?", "", line) for line in lines[1].rstrip("\n").split("\n"))


def statuses_apart(blocks):
    """Blocks without the table of statuses and the paragraph behind it, and these two."""
    for place, (kind, body) in enumerate(blocks):
        if kind == "table" and body[0][0] == "Status":
            end = place + 2 if blocks[place + 1 : place + 2] and blocks[place + 1][0] == "paragraph" else place + 1
            return blocks[:place] + blocks[end:], blocks[place:end]
    return blocks, []


def files_apart(blocks):
    """Blocks without the paragraphs that say where texts lie, and these."""
    lies = [block for block in blocks if block[0] == "paragraph" and block[1].startswith("A text lies at ")]
    return [block for block in blocks if block not in lies], lies


# The pages: a page is a list of lines of roff.


def escaped(text):
    """A text with what roff reads in its own way escaped."""
    for plain, roff in (("\\", "\\e"), ("-", "\\-"), ("'", "\\(aq"), ("`", "\\(ga"), ("^", "\\(ha"), ("~", "\\(ti")):
        text = text.replace(plain, roff)
    return text


def prose(text):
    """A text outside of code: a hyphen within a word is a hyphen, and an apostrophe is one."""
    text = escaped(re.sub(r"(?<=\w)-(?=\w)", "\0", text)).replace("\0", "-")
    return re.sub(r"(?<=\w)\\\(aq", "'", text)


def inline(text):
    """A line of markdown as roff: code and strong text in bold, links as their words."""
    text = re.sub(r"\[([^\]]*)\]\([^)]*\)", r"\1", text).replace("\\|", "|")
    parts = re.split(r"`([^`]+)`|\*\*([^*]+)\*\*", text)
    out = ""
    for place, part in enumerate(parts):
        if part:
            out += prose(part) if place % 3 == 0 else f"\\fB{escaped(part) if place % 3 == 1 else prose(part)}\\fP"
    return "\\&" + out if out[:1] in (".", "'") else out


def usage_line(text):
    """A line of a synopsis: what is spelled as it stands in bold, what stands for something else in italics."""
    parts = re.split(r"([A-Z][A-Z_]+|N\b|[][<>|]|\.\.+|\s+)", text)
    return "".join(
        part if place % 2 and not part[:1].isalpha() else f"\\f{'I' if place % 2 else 'B'}{escaped(part)}\\fP"
        for place, part in enumerate(parts)
        if part
    )


def shown(text):
    """The length of a line of roff as it is shown."""
    return len(re.sub(r"\\f.|\\&", "", re.sub(r"\\\(..|\\e|\\-", "x", text)))


def tagged(tag, *body):
    """A tagged paragraph of lines; a tag that is too long for its line is a paragraph with the body indented below it."""
    lines = [line for each in body for line in (each, ".br")][:-1] or ["\\&"]
    if shown(tag) <= WIDEST_TAG:
        return [".TP", tag or "\\&", *lines]
    return [".PP", tag, ".RS", *lines, ".RE"]


def table(rows):
    """A table as tagged paragraphs: the first cell is the tag, and one without goes on with that of the row before. With two columns
    their heads come first, else each in its cell."""
    heads, paragraphs = rows[0], []
    for row in rows[1:]:
        body = [cell if len(row) == 2 else f"{head}: {cell}" for head, cell in list(zip(heads, row))[1:] if cell]
        if row[0] or not paragraphs:
            paragraphs.append([row[0]])
        paragraphs[-1] += body
    lines = [".TP", f"\\fI{prose(heads[0])}\\fP", f"\\fI{prose(heads[1])}\\fP"] if len(heads) == 2 and heads[0] else []
    return lines + [line for paragraph in paragraphs for line in tagged(*map(inline, paragraph))]


def code(lines):
    """Code as it is; where a line says far behind its code what it is, the code is a tag."""
    out = []
    for line in lines:
        plain, _, what = line.strip().partition("   ")
        if what:
            out += tagged(f"\\fB{escaped(plain)}\\fP", inline(what.strip()))
        else:
            out += [".PP", ".nf", "\\&" + escaped(line), ".fi"]
    return [".PP", ".RS 4", *out, ".RE"]


SHOW = {
    "code": code,
    "table": table,
    "paragraph": lambda text: [".PP", inline(text)],
    "item": lambda text: [".IP \\(bu 2", inline(text)],
}


def roff(blocks):
    """Blocks as lines of roff."""
    lines = []
    for kind, body in blocks:
        lines += SHOW[kind](body)
    return lines


def heading(name, lines):
    return [f".SH {name}", *lines] if lines else []


def quoted(text):
    """A text as one argument of a request."""
    return '"' + escaped(text).replace('"', "\\(dq") + '"'


def front(name, number, what):
    """How a page begins."""
    return [
        f".\\\" Made by tools/man.py; don't edit.",
        f".TH {quoted(name)} {number} \"\" Mowhairu \"Mowhairu manual\"",
        ".nh",
        ".ad l",
        ".SH NAME",
        f"{escaped(name)} \\- {prose(what)}",
    ]


def see_also(name):
    others = [page for page in PAGES if not page.startswith(name + "(")] + (["systemd.socket(5)"] if name == "pumpd" else ["cc(1)"])
    return heading("SEE ALSO", [", ".join(f"\\fB{escaped(page[:-3])}\\fP{page[-3:]}" for page in others)])


def units():
    """The unit files, each with its description, as a table."""
    rows = [["File", "Is"]]
    for unit in UNITS:
        found = re.search(r"^Description=(.+)", read(f"packaging/{unit}"), re.MULTILINE)
        if not found:
            raise Lacking(f"packaging/{unit} has no Description")
        rows.append([f"`{unit}`", found[1]])
    return [("table", rows)]


def synopsis(blocks, usage):
    """The lines of a synopsis: those of the code that blocks begin with; the help's usage, which has the streams too, stands for one."""
    if blocks[0][0] != "code":
        raise Lacking(f"{FORMATS} has a section of words that doesn't begin with them")
    lines = [usage if usage.startswith(line) else line for line in blocks[0][1]]
    if usage not in lines:
        raise Lacking(f"'{usage}', the usage that the help names, isn't among the words of {FORMATS}")
    return [line for each in lines for line in (usage_line(each), ".br")][:-1]


def statuses_agree(name, told, statuses):
    """The help and the table of statuses name the same ones."""
    helped = re.findall(r"(?:^|, )([0-9]+) ", told)
    listed = [row[0] for kind, body in statuses if kind == "table" for row in body[1:]]
    if sorted(helped) != sorted(listed):
        raise Lacking(f"the help of {name} names the statuses {', '.join(helped)}, and {FORMATS} {', '.join(listed)}")


def program_page(name, sections):
    """The page of a program, and the blocks that it shows."""
    number, what, words, parts = PROGRAMS[name]
    usage, does, told = help_of(name)
    own, statuses = statuses_apart(section(sections, words))
    described = [("paragraph", text) for text in does]
    lines = front(name, number, what) + heading("SYNOPSIS", synopsis(own, usage))
    lines += heading("DESCRIPTION", roff(described)) + heading("OPTIONS", roff(own[1:]))
    blocks, files = own + described, []
    for title, begin in parts:
        rest, more = statuses_apart(section(sections, begin))
        rest, lies = files_apart(rest)
        statuses, files = statuses + more, files + lies
        lines += heading(title, roff(rest))
        blocks += rest
    files += units() if name == "pumpd" else []
    statuses_agree(name, told, statuses)
    lines += heading("EXIT STATUS", roff(statuses)) + heading("FILES", roff(files)) + see_also(name)
    return number, lines, blocks + statuses + files


def columns_of(lines):
    """Where the columns of lines begin: behind at least two places that are blank in all of them."""
    width = max(map(len, lines))
    blank = "".join(" " if all(line[place : place + 1] in ("", " ") for line in lines) else "x" for place in range(width))
    return [found.start() for found in re.finditer(r"(?:(?<=  )|^)x", blank)]


def rows_of(lines):
    """The rows of lines in columns; in two columns a row without a first cell goes on with the one before."""
    begins = columns_of(lines)
    rows = [[line[begin:end].strip() for begin, end in zip(begins, begins[1:] + [None])] for line in lines]
    if len(begins) > 2:
        return rows
    joined = [["", ""]]
    for first, second in rows:
        if first:
            joined.append([first, second])
        else:
            joined[-1][1] += " " + second
    return joined


def items_of(lines):
    """The paragraphs of lines, where `- ` begins an item that the lines with two blanks in front go on with."""
    blocks = []
    for line in lines:
        kind = "item" if line.startswith("- ") else blocks[-1][0] if line.startswith("  ") and blocks else "paragraph"
        if kind == "item" and line[0] == "-" or not blocks or blocks[-1][0] != kind:
            blocks.append((kind, line.removeprefix("- ")))
        else:
            blocks[-1] = (kind, blocks[-1][1] + " " + line.strip())
    return blocks


def head_blocks(part):
    """The blocks of a part of a head, which no empty line parts, and the heading under which they belong."""
    lines = part.split("\n")
    if len(lines) > 1 and len(columns_of(lines)) > 1:
        rows = rows_of(lines)
        title = "EXIT STATUS" if len(rows[0]) > 2 else "ENVIRONMENT" if re.fullmatch(r"[A-Z_]+", rows[-1][0]) else "DESCRIPTION"
        return title, [("table", rows)]
    return "EXIT STATUS" if lines[0].startswith("Status") else "DESCRIPTION", items_of(lines)


def script_page(name):
    """The page of a script, and the blocks that it shows."""
    parts = [part.strip("\n") for part in re.split(r"\n[ \t]*\n", head_of(f"tools/{name}"))]
    what, _, does = " ".join(parts[0].split()).partition(": ")
    usages = [part for part in parts[1:] if part.startswith("usage: ")]
    if len(usages) != 1:
        raise Lacking(f"the head of tools/{name} doesn't have one paragraph that begins with 'usage: '")
    uses = [use for line in usages[0].removeprefix("usage: ").split("\n") for use in re.split(r" {2,}", line.strip())]
    shown_as = [line for use in uses for line in (prose(use) if use[0] == "(" else usage_line(use), ".br")][:-1]
    titled = {"DESCRIPTION": [("paragraph", does[:1].upper() + does[1:])] if does else [], "EXIT STATUS": [], "ENVIRONMENT": []}
    for part in parts[1:]:
        if part not in usages:
            title, blocks = head_blocks(part)
            titled[title] += blocks
    lines = front(name, "1", what[:1].lower() + what[1:].rstrip(".")) + heading("SYNOPSIS", shown_as)
    for title, blocks in titled.items():
        lines += heading(title, roff(blocks))
    return "1", lines + see_also(name), [("code", uses)] + [block for blocks in titled.values() for block in blocks]


# The checks.

REQUESTS = {".TH", ".SH", ".PP", ".TP", ".IP", ".RS", ".RE", ".nf", ".fi", ".br", ".nh", ".ad"}
CLOSED_BY = {".RS": ".RE", ".nf": ".fi"}
SHOWN_AS = {"\\(bu": "", "\\e": "\\", "\\-": "-", "\\(aq": "'", "\\(ga": "`", "\\(ha": "^", "\\(ti": "~", "\\(dq": '"', "\\&": "", "\\fB": "", "\\fI": "", "\\fP": ""}
ESCAPE = re.compile(r"\\(?:\(..|f.|.)")


def fault_of(line, opened):
    """What is wrong with a line of a page, where some requests are open; or nothing."""
    if line.startswith('.\\"'):
        return None
    if line[:1] == ".":
        request = line.split()[0]
        if request not in REQUESTS:
            return f"unknown request {request}"
        if request in CLOSED_BY:
            opened.append(CLOSED_BY[request])
        elif request in CLOSED_BY.values() and (not opened or opened.pop() != request):
            return f"{request} closes nothing"
        elif request == ".SH" and opened:
            return f"a section where {opened[-1]} is due"
    odd = [escape for escape in ESCAPE.findall(line) if escape not in SHOWN_AS]
    if odd:
        return f"unknown escape {odd[0]}"
    fonts = re.findall(r"\\f(.)", line)
    if len(fonts) % 2 or any(font == "P" for font in fonts[::2]) or any(font != "P" for font in fonts[1::2]):
        return "a font that isn't ended"
    return "an empty line" if not line else "a line that begins with '" if line[0] == "'" else None


def text_of(lines):
    """The text that lines of roff show."""
    texts = [line[4:] if line.startswith(".SH") else line for line in lines if line[:1] != "." or line.startswith(".SH")]
    return ESCAPE.sub(lambda found: SHOWN_AS.get(found[0], found[0]), " ".join(texts))


def words_of(text):
    """The words of a text of markdown or of a page, each with no sign at its ends."""
    return {word.strip("`*.,;:()[]'\"") for word in text.replace("\\|", "|").split()}


def texts_of(blocks):
    """The texts of blocks that a page shows, line by line and cell by cell; the first head of a wide table isn't shown."""
    for kind, body in blocks:
        if kind == "table":
            yield from [cell for row in body for cell in row][1 if len(body[0]) > 2 else 0 :]
        else:
            yield from body if kind == "code" else [body]


def check(name, lines, blocks):
    """Says what is wrong with a page, and how many such things there are."""
    opened, faults = [], []
    for place, line in enumerate(lines, 1):
        fault = fault_of(line, opened)
        faults += [f"line {place}: {fault}"] if fault else []
    faults += [f"{due} is lacking at the end" for due in opened]
    has = words_of(text_of(lines))
    lacking = {word for text in texts_of(blocks) for word in words_of(re.sub(r"\[([^\]]*)\]\([^)]*\)", r"\1", text))} - has
    faults += [f"lacks '{word}' of its source" for word in sorted(lacking)]
    for fault in faults:
        print(f"man.py: {name}: {fault}", file=sys.stderr)
    return len(faults)


def pages():
    """Each page: its name, its section, its lines and the blocks that it shows."""
    sections = sections_of(read(FORMATS))
    for name in PROGRAMS:
        yield name, *program_page(name, sections)
    if os.path.exists(os.path.join(TOP, "tools/mow-cc")):
        yield "mow-cc", *script_page("mow-cc")
    else:
        print("man.py: tools/mow-cc isn't there, so it has no page", file=sys.stderr)


def main(words):
    checked = words[:1] == ["--check"]
    folders = words[1:] if checked else words
    if len(folders) != 1 or folders[0].startswith("-"):
        print("usage: man.py [--check] FOLDER", file=sys.stderr)
        return 2
    faults = 0
    try:
        os.makedirs(folders[0], exist_ok=True)
        for name, number, lines, blocks in pages():
            faults += check(name, lines, blocks) if checked else 0
            path = os.path.join(folders[0], f"{name}.{number}")
            with open(path, "w", encoding="utf-8") as file:
                file.write("\n".join(lines) + "\n")
            print(path)
    except (Lacking, OSError) as error:
        print(f"man.py: {error}", file=sys.stderr)
        return 1
    return 1 if faults else 0


if __name__ == "__main__":
    sys.exit(main(sys.argv[1:]))
