#!/usr/bin/env python3
"""Counts the places of docs/DESIGN-PASS.md in crates/*/src (and, for point 8, in proofs), at a commit or in the work tree.

    tools/places.py             the work tree
    tools/places.py COMMIT      that commit
    tools/places.py -v [COMMIT] with every place

Each count is a plain pattern over the text of functions, so that it finds too much rather than too little: the page says what of it is a place.
"""
import pathlib
import re
import subprocess
import sys
from collections import defaultdict

ROOT = pathlib.Path(__file__).resolve().parent.parent


def files_at(commit):
    """All files of crates/ by name, at a commit or in the work tree."""
    wanted = re.compile(r"crates/[^/]+/(src/.*\.rt|proofs/.*\.antt)$")
    if commit is None:
        found = (p for p in ROOT.glob("crates/*/*/**/*") if p.is_file())
        names = (str(p.relative_to(ROOT)) for p in found)
        return {n: (ROOT / n).read_text() for n in sorted(names) if wanted.match(n)}
    git = ["git", "-C", str(ROOT)]
    names = subprocess.run(git + ["ls-tree", "-r", "--name-only", commit, "crates"], check=True, capture_output=True, text=True).stdout.split("\n")
    names = [n for n in names if wanted.match(n)]
    asked = "".join(f"{commit}:{n}\n" for n in names).encode()
    raw = subprocess.run(git + ["cat-file", "--batch"], input=asked, check=True, capture_output=True).stdout
    texts, at = {}, 0
    for name in names:
        end = raw.index(b"\n", at)
        size = int(raw[at:end].split()[2])
        texts[name] = raw[end + 1:end + 1 + size].decode()
        at = end + 1 + size + 1
    return texts


def functions(texts):
    """Every function with a body: file, name, head (with its clauses) and body, comments left out."""
    found = []
    for name, text in texts.items():
        if not name.endswith(".rt") or "/src/" not in name:
            continue
        plain = re.sub(r"(?m)^\s*//.*$", "", text)
        plain = re.sub(r"//.*", "", plain)
        for m in re.finditer(r"(?m)^(\s*)(?:pub(?:\([a-z]+\))? )?(?:extern \"C\" )?fn (\w+)", plain):
            indent = m.group(1).replace("\n", "")
            end = re.compile(rf"(?m)^{indent}\}}$").search(plain, m.end())
            # a body on the line of its head, or one that opens on a line of its own
            opened = re.compile(rf"(?m)(?:^{indent}\{{$|\{{$)").search(plain, m.end())
            if not end or not opened or opened.start() > end.start():
                continue
            found.append((name, m.group(2), plain[m.start():opened.start()], plain[opened.end():end.start()]))
    return found


def clauses(head):
    """The conjuncts of what a function asks for, with its parameters' names left out."""
    for m in re.finditer(r"requires\s+\w*\s*\{(.*?)\}\s*(?=requires|ensures|$)", head, re.S):
        for part in re.split(r"×", m.group(1)):
            part = re.sub(r"\s+", " ", part).strip()
            while part.startswith("(") and part.endswith(")") and part.count("(") == part.count(")"):
                part = part[1:-1].strip()
            part = re.sub(r"\b\w+\.(now|old|new)\b", "_", part)
            if part:
                yield part


def shape(body):
    """A body with its names and numbers left out: two that are alike have one shape."""
    body = re.sub(r"\b(if|else|while|for|in|match|return|let|mut|as|loop|break)\b", lambda m: m.group(0).upper(), body)
    body = re.sub(r"0x[0-9A-Fa-f_]+|\b\d+(?:u8|u64|usize)?\b", "0", body)
    body = re.sub(r"\b[a-z_][\w:]*\b", "n", body)
    body = re.sub(r"\b[A-Z][A-Z_0-9]+\b(?<!IF)(?<!ELSE)(?<!WHILE)(?<!FOR)(?<!IN)(?<!MATCH)(?<!RETURN)(?<!LET)(?<!MUT)(?<!AS)(?<!LOOP)(?<!BREAK)", "0", body)
    body = re.sub(r"\b[A-Z]\w*[a-z]\w*\b", "T", body)
    return re.sub(r"\s+", " ", body).strip()


def count(texts):
    """For each line of the page: its name and its places."""
    fs = functions(texts)
    src = {n: re.sub(r"//.*", "", t) for n, t in texts.items() if "/src/" in n}

    def lines(pattern, only=lambda n: True):
        return [f"{n}:{t.count(chr(10), 0, m.start()) + 1}: {m.group(0).strip()}" for n, t in src.items() if only(n) for m in re.finditer(pattern, t)]

    def named(test):
        return [f"{n}: {f}" for n, f, h, b in fs if test(n, f, h, b)]

    out = []
    out.append(("1a structs with a number, a flag or a count of their own beside a value", lines(r"(?m)^    pub (number|stands|ready|set): (u8|bool),")))
    out.append(("1b functions that answer a number for a refusal or a sort", named(lambda n, f, h, b: re.search(r"-> (u8|usize|u64)\s", h + "\n") and re.search(r"fault|unlisted|^number_of$|^sort$|^find$|^shift_of$|^digit$|^hex_value$", f))))
    out.append(("1c rows by number_or", lines(r"\bnumber_or\(")))
    out.append(("1d tests of a number that is 0 where nothing is refused", lines(r"\b(\w+\.)?(number|wrong|refused|found|fault)(\.number)? (!=|==) 0")))
    out.append(("1e constants for kinds, sources, tags", lines(r"(?m)^(pub )?const (LOGIC|SET_M|STORE|MASKED_STORE|DELIVER|RESOLVE|SET_MODE|MEMORY|M|X|Y|OUTSIDE|TAG_\w+|PICTURE|LIST|ITEMS|MODES_PICTURE): \w+")))
    out.append(("1f answers that stand for none", lines(r"\b999\b|\bUNREADABLE\b|\bNONE\b")))
    groups = defaultdict(list)
    for n, f, h, b in fs:
        s = shape(b)
        if len(s) > 24 and "library_c" not in n:
            groups[s].append(f"{n}: {f}")
    out.append(("2 functions whose bodies differ in names and numbers alone", [p for g in groups.values() if len(g) > 1 for p in g]))
    out.append(("3 loops by while", lines(r"(?m)^\s*while [^\n]*")))
    out.append(("4a elements copied, compared or cast one by one", lines(r"(?m)^\s*(\w+)\[(\w+)\] = (\w+)\[\2\];|if \w+\[(\w+)\] [!=]= \w+\[\4\]")))
    out.append(("4b functions that only cast, compare or convert", named(lambda n, f, h, b: re.fullmatch(r"\s*\(?\*?\w+( [%/] \w+)?\)? as \w+\s*|\s*if \w+ \{ 1 \} else \{ 0 \}\s*|\s*if a < b \{ a \} else \{ b \}\s*", b) or len(re.findall(r" as u32", b)) > 1 or re.fullmatch(r"(six|five|three|two|put_six|two_counts|number_and_\w+)", f))))
    out.append(("4c fields said twice, and values only given another name", lines(r"(?m)^\s*(\w+): \1,$|^\s*let (\w+) = \w+\.\2;$")))
    facts = defaultdict(list)
    for n, f, h, b in fs:
        for c in set(clauses(h)):
            facts[c].append(f"{n}: {f}")
    out.append(("5 facts that three or more functions ask for", [f"{c}: {len(g)} functions" for c, g in sorted(facts.items(), key=lambda x: -len(x[1])) if len(g) > 2]))
    out.append(("6a parameters for parallel arrays", named(lambda n, f, h, b: "starts:" in h and "widths:" in h)))
    out.append(("6b a buffer and the index to go on at, handed on", named(lambda n, f, h, b: re.search(r"&(?:'a )?mut \[u8\]", h) and re.search(r"\bat: usize", h))))
    out.append(("7a parameters that choose a step", named(lambda n, f, h, b: re.search(r"\b(less|difference|room|new|shown|touches): bool", h))))
    out.append(("7b a number asked for one value after the other", lines(r"(?m)^\s*if k == \d")))
    proofs = {n: t for n, t in texts.items() if n.endswith("Answers.antt")}
    out.append(("8a proofs of functions: files of answers", list(proofs)))
    out.append(("8b their lines", [f"{n}:{i}" for n, t in proofs.items() for i in range(t.count(chr(10)))]))
    out.append(("8c names in them that only rename", [f"{n}: {m.group(0)}" for n, t in proofs.items() for m in re.finditer(r"\blet (\w+) = \w+ in\b", t)]))
    return out


def main(words):
    told = "-v" in words
    commit = next((w for w in words if w != "-v"), None)
    for name, places in count(files_at(commit)):
        print(f"{len(places):6} {name}")
        if told and not name.startswith("8"):
            for place in places:
                print(f"         {place}")


if __name__ == "__main__":
    main(sys.argv[1:])
