"""The inputs that `make bench` makes."""
import os
import re
import subprocess

LIMIT = 16_777_216  # the most bytes that a body has

TOKEN = re.compile(
    rb'(?:u8|[uUL])?"(?:[^"\\\n]|\\.)*"|(?:u8|[uUL])?\'(?:[^\'\\\n]|\\.)*\''
    rb"|\.?[0-9](?:[eEpP][+-]|[\w.])*|[A-Za-z_$\x80-\xff][\w$\x80-\xff]*"
    rb"|%:%:|\.\.\.|<<=|>>=|##|->|\+\+|--|<<|>>|[<>=!*/%+\-&^|]=|&&|\|\||<:|:>|<%|%>|%:|\S")

HEADERS = """
    assert complex ctype errno fenv float inttypes iso646 limits locale math setjmp signal stdalign stdarg stdatomic
    stdbool stddef stdint stdio stdlib stdnoreturn string tgmath threads time uchar wchar wctype
    arpa/inet dirent dlfcn fcntl glob grp netdb netinet/in poll pthread pwd regex semaphore spawn sys/mman sys/socket
    sys/stat sys/types sys/wait termios unistd
""".split()

# What sources of the tables of real headers include: headers of the C library or of Linux.
REAL_HEADERS = [
    ["stdio.h"],
    ["stdlib.h", "string.h", "stdio.h"],
    ["stdio.h", "stdlib.h", "string.h", "errno.h", "fcntl.h", "unistd.h", "sys/types.h", "sys/stat.h", "sys/socket.h",
     "netinet/in.h", "pthread.h", "signal.h", "time.h"],
    ["math.h", "complex.h", "tgmath.h"],
    ["limits.h", "stdint.h", "inttypes.h", "float.h", "stdarg.h", "stdbool.h"],
    ["linux/kernel.h", "linux/types.h", "linux/if.h", "linux/netlink.h", "linux/rtnetlink.h"],
]


def tokens_of(text):
    """The tokens of a preprocessed text, without its line markers."""
    return TOKEN.findall(b"\n".join(line for line in text.split(b"\n") if not line.startswith(b"# ")))


def fill(unit, size):
    """A body of a unit repeated, of at most this size."""
    return unit * (size // len(unit))


def front(text, size):
    """The front of a text up to the last end of a line within a size."""
    return text[: text.rindex(b"\n", 0, size) + 1]


def hostile_bodies():
    """Bodies of nearly the most bytes, which would take long where the lexer went over bytes more than once."""
    size = LIMIT - 16
    yield "/* repeated", fill(b"/*", size)
    yield "one open /* of letters", b"/*" + fill(b"a", size)
    yield "one open /* of stars", b"/*" + fill(b"*", size)
    yield '" repeated', fill(b'"', size)
    yield "\\' repeated on one line", fill(b"\\'", size)
    yield "backslash-newlines", fill(b"\\\n", size)
    yield "# lines", fill(b"#\n", size)
    yield "newlines", fill(b"\n", size)
    yield "one line of letters", fill(b"a", size)
    yield "all byte values repeated", fill(bytes(range(256)), size)
    yield "#if __has_include(< repeated", fill(b"#if __has_include(<", size)


def files_below(folder, suffixes):
    found = []
    for place, _, names in os.walk(folder):
        found += [os.path.join(place, name) for name in names if name.endswith(suffixes)]
    return sorted(path for path in found if os.path.isfile(path))


def headers_text(size):
    """C text of this size: headers of the host, every few in the order of their paths, or else the examples."""
    files = files_below("/usr/include", (".h",)) or files_below("examples", (".c", ".h"))
    step = max(1, sum(os.path.getsize(path) for path in files) // size)
    parts, made = [], 0
    for start in range(step):
        for path in files[start::step]:
            with open(path, "rb") as file:
                parts.append(file.read())
            made += len(parts[-1])
        if made > size:
            break
    text = b"".join(parts)
    return front(text * (size // len(text) + 1), size)


def preprocessed_text():
    """What a file that includes the headers of ISO C and POSIX preprocesses to, by gcc. It has no directive and no
    reserved word, so it preprocesses to itself."""
    asked = "#if __has_include(<{0}.h>)\n#include <{0}.h>\n#endif\n"
    source = "".join(asked.format(name) for name in HEADERS)
    command = ["gcc", "-E", "-P", "-x", "c", "-"]
    made = subprocess.run(command, input=source.encode(), stdout=subprocess.PIPE, check=True)
    return re.sub(rb"\b__", b"x_", made.stdout)


def plain_files(text, count, size):
    """So many files of a text, each of at most this size, with lines of some 1,000 bytes that are words and marks."""
    words = re.sub(rb"[^\w;,()\[\]{}]+", b" ", text).split(b" ")
    lines, line = [], b""
    for word in words:
        if len(line) + len(word) >= 1_000:
            lines.append(line + b"\n")
            line = b""
        line += b" " + word
    each = size // 1_000
    lines *= count * each // len(lines) + 1
    return [b"".join(lines[number * each : (number + 1) * each]) for number in range(count)]


def lines_of(count, line):
    return "".join(line(number) for number in range(count))


def tgmath_macros():
    """The macros of tgmath.h, as gcc's own conditionals leave them."""
    command = ["gcc", "-E", "-fdirectives-only", "-w", "-x", "c", "-"]
    made = subprocess.run(command, input="#include <tgmath.h>\n", stdout=subprocess.PIPE, text=True, check=True)
    lines = [line for line in made.stdout.split("\n") if not line.startswith("# ") and "__STDC" not in line]
    return "\n".join(lines)


def tgmath_expansions():
    macros = tgmath_macros()
    # Each call is a run of text of its own: a directive stands behind it.
    yield "tgmath.h, sqrt(x) 2,000 times", macros + "sqrt(x)\n#\n" * 2_000
    yield "tgmath.h, sqrt(x + pow(y, z)) 100 times", macros + "sqrt(x + pow(y, z))\n#\n" * 100


def expansions():
    """Texts whose expansion takes long, or would where it did work more than once."""
    yield "text that no macro replaces", "#define X x\n" + "int y = f(1, \"s\") + z;\n" * 100_000
    yield "a chain of 20,000 names", lines_of(20_000, lambda n: f"#define N{n + 1} N{n}\n") + "N20000\n"
    calls = lines_of(300, lambda n: f"#define F{n + 1}(x) F{n}(x)\n")
    yield "a chain of 300 calls, 100 times", calls + "F300(1)\n" * 100
    yield "300 nested calls, 100 times", "#define F(x) x\n" + ("F(" * 300 + "1" + ")" * 300 + "\n") * 100
    body = " ".join(f"w{n}" for n in range(50))
    yield "a body of 50 tokens, 100,000 times", f"#define X {body}\n" + "X\n" * 100_000
    yield "2,000 arguments of 1,000 tokens", "#define F(a) a\n" + ("F(" + "x " * 1_000 + ")\n") * 2_000
    chain = lines_of(3_000, lambda n: f"#define A{n + 1} A{n}\n")
    words = " ".join(f"w{n}" for n in range(500))
    nested = f"#define F(x) x\n#define A0 {'F(' * 20}{words}{')' * 20}\n"
    yield "500 words in 20 calls, in a chain of 3,000 names", f"{nested}{chain}A3000\n"
    for count in [4_800, 9_600]:
        calls = lines_of(count, lambda n: f"#define F{n + 1}(x) F{n}(x)\n")
        yield f"a chain of {count:,} calls", f"#define F0(x) x\n{calls}F{count}(1)\n"
    parameters = ",".join(f"p{n}" for n in range(40_000))
    yield "a call with 40,000 parameters", f"#define F({parameters}) {'p39999 ' * 100_000}\nF({',' * 39_999})\n"
    yield "20,000 spellings pasted", pasted(20_000)


def pasted(count):
    """So many spellings that are joined to one."""
    return f"#define F(x) {' ## '.join(['x'] * count)}\nF(a)\n"


def doubling(calls):
    """Macros, each of which is the one before it twice."""
    return "#define A0 x x\n" + lines_of(21, lambda n: f"#define A{n + 1} A{n} A{n}\n") + calls + "\n"


def choices():
    """Cases of `choice_examples`, and how many lists of choices each runs through: headers of many parts, each with four
    definitions; twelve names with one each, in tokens that name one header; and a computed include as real code has it."""
    parts = [letter * 2 for letter in "abcdef"]
    four = "".join(f"#define {part} {number}\n" for part in parts for number in range(1, 5))
    yield "15,625 headers", f"{four}#define H <{'/'.join(parts)}>\nH\nnames 15626 =>\n", 15_626
    names = " ".join(f"n{number}" for number in range(12))
    twelve = lines_of(12, lambda number: f"#define n{number}\n")
    yield "12 names, one header", f"{twelve}<h.h> {names}\nnames 4096 =>\n", 4_096
    real = "#define STR(x) #x\n#define NAME(dir, file) STR(dir/file.h)\n" + "NAME(sys, types)\n#undef none\n" * 1_000
    yield "a macro that spells its header, 1,000 times", real + "names 100 =>\n", 3_000


def compile_list(size):
    """A list of jobs of at most this size, and how many there are. A line has 846 bytes, since a list has at most
    20,000 jobs."""
    options = " ".join(f"-I include/part{number:02}" for number in range(44))
    line = "/home/me/build src/file{0:05}.c %s -o objects/file{0:05}.o\n" % options
    jobs = size // len(line.format(0))
    return lines_of(jobs, line.format).encode(), jobs


def token(letters, number):
    return b"%s%08x" % (letters, number)


def field(letters, body):
    return token(letters, len(body)) + body


def request(files):
    """The request of a small job, with these files beside its source; each is a name and a body."""
    named = {b"/w/" + name: body for name, body in [(b"a.c", b"int x;\n"), *files]}
    return request_of(b"/w", [b"a.c"], named)


def request_of(folder, words, files):
    """The request of a job in a folder: its words, these files by their paths, and the directories that they stand in."""
    head = token(b"DIST", 0x103) + field(b"CDIR", folder) + token(b"ARGC", len(words))
    entries = dict.fromkeys(above for path in files for above in directories_above(path)) | files
    fields = [field(b"NAME", path) + described(entries[path]) for path in sorted(entries)]
    return head + b"".join(field(b"ARGV", word) for word in words) + token(b"NFIL", len(fields)) + b"".join(fields)


def directories_above(path):
    parts = path.split(b"/")[1:-1]
    return [b"/" + b"/".join(parts[:count]) for count in range(1, len(parts) + 1)]


def described(body):
    """An entry behind its name: a file's body, or a directory where there is none."""
    return token(b"MDIR", 0) if body is None else field(b"FILE", body)


def small_files(count):
    return [(b"f%05d" % number, b"int y;\n") for number in range(count)]


def large_files(count):
    return [(b"f%02d" % number, b"x" * LIMIT) for number in range(count)]
