#!/usr/bin/env python3
"""Counts the places of older forms in the sources, for docs/DESIGN-PASS.md: tools/forms.py [-v] [FOLDER]

FOLDER is a checkout, by default this one; -v lists each place. A number behind a point's name is how many places it finds:

1a enums   enums of a crate's own
1b flags   fields of type bool in a struct that has other fields, and no more than three of that type
1c kinds   files in which a field or parameter `opcode`, `register`, `number` or `direction` is a number, each word for itself
2a bodies  functions whose body, of 40 tokens or more, is another's but for names and constants, each group less one
2b types   structs whose fields have the names and types of another's, each group less one
3  loops   `while` and `loop`
4  by hand functions that a method of the library, a derive or a conversion stands for
5a facts   facts that stand in the `requires` of three or more functions
5b groups  three or more parameters of one name and type that stand side by side in three or more functions
6  arrays  fields, parameters and variables that are arrays of a fixed length
7  steps   `match` on what is to be done, where each arm calls
8  proofs  proof files of functions, and their lines
"""
import collections
import pathlib
import re
import sys

BY_HAND = """min max saturating_sub lesser last_below distance_of wide flag join pair word_of word_at word put_word put_head pixel_in
is_digit is_white digit print_pixel put copy_bytes fill_bytes put_bytes put_row bytes_at row_blank tile_blank tile_blank_in fits""".split()
TOKEN = re.compile(r"[A-Za-z_][A-Za-z0-9_]*|0x[0-9A-Fa-f_]+|[0-9][0-9_]*(?:usize|u8|u32|u64)?|[^\sA-Za-z0-9_]")
KINDS = ("opcode", "register", "number", "direction")
KEYWORDS = set("as break const continue crate else enum false fn for if impl in let loop match mod mut pub ref return self Self "
               "struct true use while usize u8 u16 u32 u64 bool".split())


def text_of(path):
    """The source without comments and without clauses in antt."""
    out = []
    for line in path.read_text().split("\n"):
        line = re.sub(r"//.*", "", line)
        clause = re.match(r"\s*(ghost|requires|ensures)\b", line)
        out.append((";" if line.endswith(";") else "") if clause else line)
    return "\n".join(out)


def block(text, at):
    """The text from the brace at `at` to the one that closes it."""
    depth = 0
    for i in range(at, len(text)):
        depth += {"{": 1, "}": -1}.get(text[i], 0)
        if depth == 0:
            return text[at : i + 1]
    return text[at:]


def functions(text):
    """Name, line, parameters and body of each function."""
    for m in re.finditer(r"\bfn ([a-z_0-9]+)(?:<[^(]*>)?\(", text):
        depth, i = 1, m.end()
        while depth:
            depth += {"(": 1, ")": -1}.get(text[i], 0)
            i += 1
        brace = text.find("{", i)
        semicolon = text.find(";", i)
        if brace < 0 or 0 <= semicolon < brace:
            continue
        yield m.group(1), text.count("\n", 0, m.start()) + 1, text[m.end() : i - 1], block(text, brace)


def shape(body):
    """The body with names and constants left out."""
    out = []
    for token in TOKEN.findall(body):
        if token[0].isdigit():
            out.append("0")
        elif token in KEYWORDS or not (token[0].isalpha() or token[0] == "_"):
            out.append(token)
        else:
            out.append("x")
    return tuple(out)


def structs(text):
    for m in re.finditer(r"\bstruct ([A-Z][A-Za-z0-9]*)[^;{(]*\{", text):
        fields = re.findall(r"([a-z_0-9]+): ([^,\n]+),", block(text, m.end() - 1))
        yield m.group(1), text.count("\n", 0, m.start()) + 1, fields


def main():
    words = sys.argv[1:]
    verbose = "-v" in words
    words = [w for w in words if w != "-v"]
    top = pathlib.Path(words[0]) if words else pathlib.Path(__file__).resolve().parent.parent
    found = collections.OrderedDict()

    def note(point, place):
        found.setdefault(point, []).append(place)

    bodies, types, facts, groups = (collections.defaultdict(list) for _ in range(4))
    kinds = collections.Counter()
    for point in "1a enums,1b flags,1c kinds,2a bodies,2b types,3 loops,4 by hand,5a facts,5b groups,6 arrays,7 steps,8 proofs".split(","):
        found[point] = []
    for path in sorted(top.glob("crates/*/src/*.rt")):
        name = f"{path.parts[-3]}/{path.name}"
        raw, text = path.read_text(), text_of(path)
        for m in re.finditer(r"\benum ([A-Z]\w*)", text):
            note("1a enums", f"{name}: {m.group(1)}")
        for struct, line, fields in structs(text):
            if len(fields) > 1:
                flags = [field for field, kind in fields if kind == "bool"]
                for field in flags if len(flags) <= 3 else []:
                    note("1b flags", f"{name}:{line}: {struct}.{field}")
                types[tuple(sorted(fields))].append(f"{name}:{line}: {struct}")
            for field, kind in fields:
                kinds[name, field] += field in KINDS and kind in ("u32", "usize")
                if kind.startswith("["):
                    note("6 arrays", f"{name}:{line}: {struct}.{field}: {kind}")
        for function, line, parameters, body in functions(text):
            place = f"{name}:{line}: {function}"
            pairs = re.findall(r"([a-z_0-9]+): ([^,\n]+?)(?:,|$)", " ".join(parameters.split()))
            for parameter, kind in pairs:
                kinds[name, parameter] += parameter in KINDS and kind in ("u32", "usize")
            token = shape(body)
            if len(token) >= 40 and path.parts[-3] != "pramolyt_c":
                bodies[token].append(place)
            if function in BY_HAND:
                note("4 by hand", place)
            for a in range(len(pairs) - 2):
                groups[tuple(pairs[a : a + 3])].append(place)
            for m in re.finditer(r"\bmatch [^{]+\{", body):
                arms = block(body, m.end() - 1)
                if len(re.findall(r"=> \{?\s*(?:return )?[a-z_]+\(", arms)) > 1:
                    note("7 steps", place)
            for m in re.finditer(r"\blet (?:mut )?([a-z_0-9]+): (\[[^;\]]+; [^\]]+\])", body):
                note("6 arrays", f"{place}: {m.group(1)}: {m.group(2)}")
        for number, line in enumerate(text.split("\n"), 1):
            if re.search(r"^\s*(while\b.*|loop) \{", line):
                note("3 loops", f"{name}:{number}: {line.strip()}")
        for m in re.finditer(r"^\s*requires[^{]*\{ (.*) \}$", raw, re.M):
            for fact in re.split(r" × ", m.group(1)):
                fact = fact.strip()
                while fact.startswith("(") and fact.endswith(")"):
                    fact = fact[1:-1]
                facts[fact].append(f"{name}:{raw.count(chr(10), 0, m.start()) + 1}")
    for (name, word), count in kinds.items():
        if count:
            note("1c kinds", f"{name}: {word} ({count})")
    for point, table in (("2a bodies", bodies), ("2b types", types)):
        for places in table.values():
            for place in places[1:]:
                note(point, f"{place} like {places[0]}")
    for fact, places in facts.items():
        if len(places) >= 3:
            note("5a facts", f"{fact} ({len(places)} contracts)")
    for group, places in groups.items():
        if len(places) >= 3:
            note("5b groups", f"{', '.join(p + ': ' + k for p, k in group)} ({len(places)} functions)")
    for path in sorted(top.glob("crates/*/proofs/**/*.antt")):
        if path.stem in ("Answers", "Invariants", "Proof"):
            note("8 proofs", f"{path.relative_to(top)}: {len(path.read_text().splitlines())}")
    for point, places in found.items():
        more = f" of {sum(int(p.rsplit(' ', 1)[1]) for p in places)} lines" if point == "8 proofs" else ""
        print(f"{point:10} {len(places):4}{more}")
        if verbose and point != "8 proofs":
            for place in places:
                print(f"    {place}")


main()
