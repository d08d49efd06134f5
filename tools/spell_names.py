#!/usr/bin/env python3
"""Brings the names of this repository's definitions and lemmas to today's spelling: words in snake case (`readBytes` and
`abort-went` become `read_bytes` and `abort_went`), once, after port.py. Types, modules and facts keep their capitals, functions
of src/ their names, and so do names of the library and those that a check makes (goals, places).
usage: tools/spell_names.py [FOLDER]    (the repository; --try writes nothing and says which names would fall together)"""
import collections, glob, os, re, sys

tries = "--try" in sys.argv
root = ([a for a in sys.argv[1:] if not a.startswith("--")] or ["."])[0]
os.chdir(root)

WORD = r"[^\s(){}\[\];,.:=→λ|\\\"`«»]"
NAME = re.compile(r"(?<![\w'₀-₉-])[A-Za-z][\w'₀-₉]*(?:-[\w'₀-₉]+)*")
# Names that would fall together with another name, or with a word of the language, get one of their own.
OTHER = {
    "all-by": "entering_all_by", "dirty-at": "dirty_there", "entering-by": "entering_is_by", "entry-marked": "entry_is_marked",
    "fixed-length": "fixed_exact", "marks-length": "marks_exact", "tables-length": "tables_keep_length", "frame-of": "frame_there",
    "frame-sums": "frame_sums_are", "freeOne": "freed_one", "in_frame": "in_frame_placed", "in-log": "log_holds",
    "in-range": "number_in_range", "is-commit": "last_is_commit", "is_live": "holder_is_live", "is-number": "holder_is_number",
    "last-listed": "last_place_listed", "log-frames": "frames_of_log", "lostAgain": "lost_once_more", "number-of": "number_of_done",
    "number-told": "live_told", "order-of": "order_either", "read-bytes": "reader_bytes", "refused_as": "refused_same",
    "sound-durable": "sound_gives_durable", "sound-lost": "sound_gives_lost", "stored-up-to": "stored_to_stamp",
    "first_of": "first_number_of",
}


def own(path):  # a module of one of this repository's crates
    m = re.match(r"Rattle\.(\w+)\.", path)
    return bool(m) and os.path.isdir(f"crates/{m[1]}")


def blank(text):  # the text with its comments as spaces
    return re.sub(r"(?m)(?<!\S)--.*$|//.*$", lambda m: " " * len(m.group()), text)


def is_proof(path):
    return os.path.basename(path) == "Proof.antt"


def spelled(name):
    if name in OTHER:
        return OTHER[name]
    if not re.match(r"[a-z]", name):
        return name
    name = re.sub(r"(?<=[a-z0-9])([A-Z])", lambda m: "_" + m[1].lower(), name)
    return name.replace("-", "_")


def imported(text):  # names that a file takes from the library
    found = set()
    for path, names in re.findall(r"use ([^\s{]+)\.\{([^}]*)\}", text):
        if not own(path):
            found |= {n.strip().split(" as ")[-1].strip() for n in names.split(",")}
    return found


files = sorted(f for f in glob.glob("crates/**/*", recursive=True) if f.endswith((".antt", ".rt")) and "/out/" not in f)
texts = {f: open(f, encoding="utf-8").read() for f in files}

# The repository's own names: every name that one of its files of specs/ or proofs/ writes and did not take from the library,
# but for what stands in a Proof.antt, where only what such a file defines beside the goals counts.
names = set()
for path, text in texts.items():
    if not path.endswith(".antt"):
        continue
    code, library = blank(text), imported(text)
    if is_proof(path):
        for m in re.finditer(r"(?m)^(?:abbrev |unfoldable )?(?:pub )?([a-z][^\s:(){}]*) :(?! tie\.)(?! \{M : Type 1\} → statement)(.*)$", code):
            names.add(m[1])
        continue
    body = re.sub(r"(?m)^(?:pub )?use .*$", "", code)
    for m in NAME.finditer(body):
        if m.group() not in library:
            names.add(m.group())
renamed = {n: spelled(n) for n in names if spelled(n) != n}

clash = collections.defaultdict(set)
for n in names:
    clash[renamed.get(n, n)].add(n)
tokens = {f: set(NAME.findall(blank(t))) for f, t in texts.items()}
bad = {k: sorted(v) for k, v in clash.items() if len(v) > 1 and any(len(v & t) > 1 for t in tokens.values())}


def in_code(line, library, proof, locals_):
    def one(m):
        n = m.group()
        if n in library or n not in renamed:
            return n
        if proof and n not in locals_ and not (line[: m.start()].endswith(".") and re.search("[A-Z-]", n)):
            return n
        return renamed[n]

    return NAME.sub(one, line)


known = {renamed.get(n, n) for n in names}


def told(n):  # a name in prose or in an edit, which port.py left as it was
    if n in renamed:
        return renamed[n]
    new = OTHER.get(spelled(n), spelled(n))
    return new if re.search("[A-Z-]", n) and new in known else n


def in_words(line):  # prose: what stands in backticks, and what has a capital inside
    line = re.sub(r"`[^`\n]*`", lambda m: NAME.sub(lambda n: told(n.group()), m.group()), line)
    return NAME.sub(lambda n: told(n.group()) if re.match(r"[a-z]+[A-Z]", n.group()) else n.group(), line)


def turned(path, text):
    library, proof = imported(text), is_proof(path)
    locals_ = set()
    ghosts = {n.strip().split(" as ")[-1].strip() for w, got in re.findall(r"ghost use ([^\s{]+)\.\{([^}]*)\}", text) if own(w) for n in got.split(",")}
    if proof:
        for where, got in re.findall(r"use ([^\s{]+)\.\{([^}]*)\}", text):
            if own(where):
                locals_ |= {n.strip().split(" as ")[-1].strip() for n in got.split(",")}
        for m in re.finditer(r"(?m)^(?:abbrev |unfoldable )?(?:pub )?([a-z][^\s:(){}]*) :(?! tie\.)(?! \{M : Type 1\} → statement)", text):
            locals_.add(m[1])
    lines = []
    for line in text.split("\n"):
        m = re.search(r"(?<!\S)--.*$|//.*$", line)
        at = m.start() if m else len(line)
        code, words = line[:at], line[at:]
        if re.match(r"\s*(pub )?(ghost )?use ", code):
            where = re.search(r"use ([^\s{;]+)", code)[1]
            if own(where + "."):
                code = re.sub(r"\{[^}]*\}", lambda g: NAME.sub(lambda n: renamed.get(n.group(), n.group()), g.group()), code)
        elif path.endswith(".rt"):
            code = NAME.sub(lambda n: renamed[n.group()] if n.group() in renamed and (re.search("[A-Z-]", n.group()) or n.group() in ghosts) and n.group() not in library else n.group(), code)
        else:
            code = in_code(code, library, proof, locals_)
        lines.append(code + in_words(words))
    return "\n".join(lines)


if tries:
    print(len(names), "names,", len(renamed), "with another spelling")
    for k, v in sorted(bad.items()):
        print("fall together:", k, v)
    words = {"as", "in", "data", "record", "first_of", "search", "grind", "simp", "omega", "cc", "rw", "assumption", "ground", "pick", "elim", "open", "module", "where"}
    for old, new in renamed.items():
        if new in words:
            print("a word of the language:", old, new)
    for path, text in texts.items():
        library = imported(text)
        here = set(NAME.findall(blank(text)))
        for n in here:
            if n in renamed and renamed[n] in library:
                print(path, n, "falls together with the library's", renamed[n])
            if path.endswith(".rt") and n in renamed and renamed[n] in here:
                print(path, n, "falls together with", renamed[n])
    sys.exit()

for path, text in texts.items():
    new = turned(path, text)
    if new != text:
        open(path, "w", encoding="utf-8").write(new)
for path in sorted(glob.glob("crates/*/must-fail/*.edit")):
    lines = open(path, encoding="utf-8").read().split("\n")
    target = next((l.split(None, 1)[1].strip() for l in lines if l.startswith("file: ")), "")
    target = os.path.join(os.path.dirname(os.path.dirname(path)), target)
    text = texts.get(target, "")
    head = "\n".join(l for l in text.split("\n") if re.match(r"\s*(pub )?(ghost )?use ", l))
    for i, line in enumerate(lines):
        if line.startswith(("old: ", "new: ")):
            lines[i] = line[:5] + NAME.sub(lambda n: told(n.group()) if re.search("[A-Z-]", n.group()) else n.group(), line[5:])
        else:
            lines[i] = in_words(line)
    open(path, "w", encoding="utf-8").write("\n".join(lines))
for path in sorted(glob.glob("docs/**/*.md", recursive=True) + ["README.md"]):
    if path.startswith("docs/landings/") or path in ("docs/PORT.md",):
        continue
    text = open(path, encoding="utf-8").read()
    new = "\n".join(in_words(l) for l in text.split("\n"))
    if new != text:
        open(path, "w", encoding="utf-8").write(new)
