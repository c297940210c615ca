#!/usr/bin/env python3
"""Lists the places in src/ that are written in an older form, by the points of docs/DESIGN-PASS.md.

usage: python3 tools/forms.py [COMMIT]      at the top of a checkout; with COMMIT, of that commit; else of the files as they lie

A line for each place: point, file, line, what stands there. Last, how many there are of each point. It reads by patterns and judges nothing:
what is kept has its reason beside it in the source.
"""
import collections
import glob
import re
import subprocess
import sys

FUNCTION = re.compile(r"^( *)(pub )?(extern \"C\" )?fn (\w+)")
TYPES = r"u8|u16|u32|u64|usize|i32|bool"


def sources(commit):
    """Each file of src/ and of the answers, with its text."""
    if commit is None:
        for path in sorted(glob.glob("crates/*/src/*.rt") + glob.glob("crates/*/proofs/**/Answers.antt", recursive=True)):
            with open(path, encoding="utf-8") as lines:
                yield path, lines.read()
        return
    names = subprocess.run(["git", "ls-tree", "-r", "--name-only", commit, "crates"], capture_output=True, text=True, check=True).stdout.split()
    for path in sorted(names):
        if re.fullmatch(r"crates/\w+/src/\w+\.rt", path) or re.fullmatch(r"crates/.*/Answers\.antt", path):
            yield path, subprocess.run(["git", "show", f"{commit}:{path}"], capture_output=True, text=True, check=True).stdout


def functions(text):
    """Each function: the line where it begins, its name, its head and its body."""
    lines = text.split("\n")
    for n, line in enumerate(lines):
        found = FUNCTION.match(line)
        if not found:
            continue
        depth, body, head = found[1], [], []
        for m in range(n, len(lines)):
            (body if body or lines[m].rstrip() == depth + "{" or lines[m].endswith("{") and m == n else head).append(lines[m])
            if lines[m] == depth + "}":
                break
        yield n + 1, found[4], "\n".join(head or body[:1]), "\n".join(body)


def enums(text):
    for found in re.finditer(r"^(?:pub )?enum (\w+)[^{]*\{(.*?)^\}", text, re.M | re.S):
        variants = [v.strip() for v in found[2].split("\n") if v.strip() and not v.strip().startswith("//")]
        yield text[: found.start()].count("\n") + 1, found[1], variants


def shape(text):
    """Names and numbers taken out of a body, so that twins look the same."""
    text = re.sub(r"//.*", "", text)
    text = re.sub(rf"\b({TYPES})\b", "T", text)
    text = re.sub(r'b?"[^"]*"', "S", text)
    text = re.sub(r"\b[A-Z][A-Z0-9_]+\b|\b\d\w*\b", "N", text)
    text = re.sub(r"\b[a-z_]\w*(?=\s*\()", "f", text)
    return re.sub(r"\s+", " ", re.sub(r"\b[a-z_]\w*\b", "x", text))


def kinds(text):
    """Runs of three constants or more of one type that count on by one."""
    run, last = [], None
    for n, line in enumerate(text.split("\n"), 1):
        found = re.match(r"(?:pub )?const ([A-Z][A-Z0-9_]*): (u8|u16|u32) = (\d+);", line)
        if not found:
            continue
        if last is None or last != (found[2], int(found[3]) - 1):
            if len(run) > 2:
                yield run
            run = []
        run.append((n, found[1]))
        last = (found[2], int(found[3]))
    if len(run) > 2:
        yield run


def places(path, text):
    for line, name, variants in enums(text):
        if any(v.startswith("Refused(Refusal)") for v in variants):
            yield 1, line, f"enum {name}: a refusal or an answer"
        elif len(variants) == 2 and any("(" in v for v in variants) and not all("(" in v for v in variants):
            yield 1, line, f"enum {name}: a value or none"
    counted = set()
    for run in kinds(text):
        counted.update(n for n, _ in run)
        yield 1, run[0][0], f"numbers for {len(run)} kinds: {run[0][1]} to {run[-1][1]}"
    for n, line in enumerate(text.split("\n"), 1):
        if n not in counted and re.match(r"(pub )?const (NO_\w+|NOTHING\w*|NOWHERE|NONE): (u8|u16|u32|usize|i32) ", line):
            yield 1, n, "a number for none: " + line.strip()
        if re.match(r"\s*(pub )?(whole|there|on|what): (bool|u8),$", line):
            yield 1, n, "a flag with a value beside it: " + line.strip()
        if re.match(r"\s*(while|loop)\b", line):
            yield 3, n, line.strip()
        if re.match(r"\s*(pub )?\w*len: (u8|usize),$", line) or re.match(r"\s*(pub )?\w*bytes: \[", line):
            yield 6, n, "a buffer and its length: " + line.strip()
        if re.match(r"(pub )?const [A-Z_]+: \[.*\] = \*b\"", line):
            yield 6, n, "a table of bytes: " + line.strip()
    for line, name, head, body in functions(text):
        if re.search(r"\b(same|is_none|least|later|bit_of|one_if|kind_of|refusal_number|\w+_code|lower)$", name):
            yield 4, line, f"fn {name}"
        copied = re.findall(r"(\w+): \w+\.\1,", body)
        if len(copied) > 2:
            yield 4, line, f"fn {name}: copies {len(copied)} fields"
        steps = re.findall(r"^    if (\w+) == (?:\d+|[A-Z][A-Z_0-9:a-z]+) \{", body, re.M)
        if len(steps) > 2 and len(set(steps)) == 1:
            yield 7, line, f"fn {name}: a chain of tests of {steps[0]}"
        for found in re.finditer(r"\bmatch (\w+(?:\.\w+)?) \{\n\s*(?:\d+|[A-Z_]{2,}|\w+::[A-Z_]{2,})\b", body):
            yield 7, line, f"fn {name}: a match of the number {found[1]}"


def parameters(head):
    inner = re.search(r"\((.*?)\)\s*(->|requires|ensures|\{|$)", re.sub(r"\s+", " ", head))
    return re.findall(rf"(?:mut )?(\w+): (&mut \[?\w+\]?|&\[?\w+\]?|\w+)", inner[1]) if inner else []


def main():
    commit = sys.argv[1] if len(sys.argv) > 1 else None
    counts = collections.Counter()
    twins, together, facts = collections.defaultdict(list), collections.defaultdict(set), collections.defaultdict(set)

    def told(point, path, line, what):
        counts[point] += 1
        print(f"{point}\t{path}\t{line}\t{what}")

    for path, text in sources(commit):
        if path.endswith(".antt"):
            for n, line in enumerate(text.split("\n"), 1):
                if re.match(r"pub \S+ :( goal\.|$)", line):
                    counts[8] += 1
            continue
        crate = path.split("/")[1]
        for point, line, what in places(path, text):
            told(point, path, line, what)
        for line, name, head, body in functions(text):
            if len(body.split("\n")) > 3:
                twins[shape(body)].append((path, line, name))
            named = parameters(head)
            for i, one in enumerate(named):
                for other in named[i + 1 :]:
                    together[(crate, one, other)].add((path, line, name))
            for found in re.finditer(r"requires (?:\w+ )?\{ (.*?) \}\s*$", head, re.M):
                facts[(crate, found[1])].add((path, line, name))
    for found in twins.values():
        if len(found) > 1:
            for path, line, name in found:
                told(2, path, line, f"fn {name}, as {', '.join(n for p, l, n in found if (p, l) != (path, line))}")
    for (crate, fact), found in sorted(facts.items()):
        if len(found) > 2:
            told(5, f"crates/{crate}", min(l for _, l, _ in found), f"{len(found)} functions require {fact}")
    for (crate, one, other), found in sorted(together.items()):
        if len(found) > 2:
            told(5, f"crates/{crate}", min(l for _, l, _ in found), f"{len(found)} functions take {one[0]}: {one[1]} and {other[0]}: {other[1]}")
    print("; ".join(f"point {p}: {counts[p]}" for p in range(1, 9)))


if __name__ == "__main__":
    main()
