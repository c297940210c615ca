#!/usr/bin/env python3
"""Tries the wrong programs of must-fail edits, and tells each that the prover does not refuse where it is wrong.

usage: python3 tests/wrong_programs.py [--edits FOLDER] [--trees N] [NAME..]      at the top of a checkout; with no NAME, every crate

An edit tries wrong programs in several functions at once, since each try costs a check of the crate; a line `wrong: LABEL in PLACE`
names each, and the function or law that has to be refused for it. `rt ci` shows that the edit as a whole is refused. Here each PLACE has to
be refused by itself: because a fact about it fails that the crate as it stands has too, and not because something that it uses was refused,
nor because a name is missing. Of several in one place, and of what waits for a callee that is refused, some are left for a further try,
until nothing more is refused; those that belong together, of which the later begin with a comment `# ..`, are tried together.
Prints each that is not refused so, and last how many there were; exits with 1 where there is one, and with 2 where there is nothing to try.
The checks are made in copies of the crates outside of this folder, one for each of N workers; the logs stay in target/wrong-programs.
With --edits, FOLDER/NAME/must-fail stands for crates/NAME/must-fail, and the logs stay there.
"""
import argparse
import collections
import glob
import json
import os
import queue
import re
import shutil
import subprocess
import sys
import tempfile
import threading

LOGS = os.path.join("target", "wrong-programs")
# What a message says where a proof, or the text of an edit, names what is not there; and where something waits for what was refused.
MISSING = re.compile(r"is not in scope|can be named|cannot be named|has no field|has no `|is no name|no constructor")
WAITS = re.compile(r"was not admitted|(was|were) not (checked|admitted)")
ERROR = re.compile(r"^(?:\./)?(proofs|specs|src)/(\S+?):\d+:\d+: error: (?:`([^`]*)`: )?(.*)")
OPEN = re.compile(r"^fn (?:\w+::)*(\w+): no proof: .*did not prove (.*)")
WRONG = re.compile(r"^wrong: (\S+) in (\S+)$")

Program = collections.namedtuple("Program", "label place file old new goes_on")


def programs(path):
    """The wrong programs of an edit, each with the file that it changes; a change that no line names is one without a label."""
    found, label, place, file, old, goes_on = [], None, None, None, None, False
    with open(path, encoding="utf-8") as lines:
        for line in lines.read().split("\n"):
            named = WRONG.match(line)
            if named:
                label, place = named[1], named[2]
            elif line.startswith("#"):
                goes_on = line.startswith("# ..")
            elif line.startswith("file: "):
                file = line[len("file: ") :].strip()
            elif line.startswith("old: "):
                old = line[len("old: ") :]
            elif line.startswith("new:"):
                found.append(Program(label, place, file, old, line[len("new:") :].removeprefix(" "), goes_on))
                label, place, old, goes_on = None, None, None, False
    return found


def groups(left):
    """Those that belong together."""
    found = []
    for program in left:
        if program.goes_on and found:
            found[-1].append(program)
        else:
            found.append([program])
    return found


def chosen(left):
    """As many groups as have no place in common."""
    taken, places = [], set()
    for group in left:
        here = {program.place for program in group}
        if not here & places:
            taken.append(group)
            places |= here
    return taken


def edited(folder, tries):
    """The texts of the files that these programs change, and what cannot be applied."""
    texts, bad = {}, []
    for program in tries:
        if program.file not in texts:
            with open(os.path.join(folder, program.file), encoding="utf-8") as file:
                texts[program.file] = file.read()
        if texts[program.file].count(program.old) != 1:
            bad.append(program)
        texts[program.file] = texts[program.file].replace(program.old, program.new)
    return texts, bad


def refused(log, goals):
    """The places that are refused because a fact fails, and those where a name is missing, which are none of the first."""
    facts, names, lines = set(), set(), log.split("\n")
    for at, line in enumerate(lines):
        error = ERROR.match(line)
        if error:
            root, path, about, text = error.groups()
            # a message goes on in the lines below it, which are set in
            for below in lines[at + 1 :]:
                if not below.startswith("  "):
                    break
                text += " " + below
            if WAITS.search(error[4]):
                continue
            folder = os.path.split(path)[0]
            places = {about or ""}
            if root == "proofs" and folder:
                places.add(os.path.basename(folder).lstrip("+"))
            (names if MISSING.search(text) else facts).update(places)
        proof = OPEN.match(line)
        if proof and set(re.findall(r"`([^`]+)`", proof[2])) & goals.get(proof[1], set()):
            facts.add(proof[1])
    return facts - names, names


def check(tree, crate, *words):
    done = subprocess.run(["rt", "check", *words], cwd=os.path.join(tree, "crates", crate), stdin=subprocess.DEVNULL, capture_output=True, text=True, errors="replace")
    return done.returncode, done.stdout + done.stderr


def goals_of(tree, crate):
    """Whether the crate proves as it stands, and what has to be proved of each of its functions."""
    status, log = check(tree, crate)
    found = collections.defaultdict(set)
    with tempfile.TemporaryDirectory() as made:
        check(tree, crate, "--generated", made, "--old-names")
        with open(os.path.join(made, "names.json"), encoding="utf-8") as names:
            for function, goals in json.load(names).get(f"off:{crate}", {}).items():
                found[function.split("::")[-1]] |= {goal[0] for goal in goals}
    return status == 0, found


def tried(tree, crate, goals, edit, logs):
    """Complaints about the wrong programs of an edit."""
    folder, name = os.path.join(tree, "crates", crate), os.path.basename(edit)[: -len(".edit")]
    all_of_it, said, rounds, missing = programs(edit), [], 0, {}
    for program in all_of_it:
        if program.label is None:
            said.append(f"{crate}/{name}: a change without a line 'wrong: LABEL in PLACE': {program.old}")
    bad = edited(folder, all_of_it)[1]
    if bad:
        return said + [f"{crate}/{name}: {program.label}: its text does not stand once in {program.file}: {program.old}" for program in bad]
    left, not_refused = groups(all_of_it), []
    while left:
        tries = chosen(left)
        texts = edited(folder, [program for group in tries for program in group])[0]
        kept = {}
        try:
            for file, text in texts.items():
                path = os.path.join(folder, file)
                with open(path, encoding="utf-8") as it:
                    kept[path] = it.read()
                with open(path, "w", encoding="utf-8") as it:
                    it.write(text)
            status, log = check(tree, crate)
        finally:
            for path, text in kept.items():
                with open(path, "w", encoding="utf-8") as it:
                    it.write(text)
        rounds += 1
        with open(os.path.join(logs, f"{name}.{rounds}.log"), "w", encoding="utf-8") as it:
            it.write(log)
        facts, names = refused(log, goals) if status else (set(), set())
        missing.update({program.label: program.place in names for group in tries for program in group})
        done = [group for group in tries if all(program.place in facts for program in group)]
        if not done:
            # What is left of these is not refused, whatever else is left out.
            not_refused += [program for group in tries for program in group if program.place not in facts]
            done = tries
        left = [group for group in left if group not in done]
    return said + [
        f"{crate}/{name}: {program.label} is not refused in {program.place}" + (", but for a name that is missing" if missing[program.label] else "")
        for program in not_refused
    ]


def work(tree, place, tasks, edits_of, said, lock):
    while True:
        try:
            crate = tasks.get_nowait()
        except queue.Empty:
            return
        logs = os.path.join(place, crate)
        os.makedirs(logs, exist_ok=True)
        proves, goals = goals_of(tree, crate)
        found = []
        if proves:
            for edit in edits_of[crate]:
                found += tried(tree, crate, goals, edit, logs)
        else:
            found.append(f"{crate}: does not prove as it stands")
        with lock:
            said += found
            for line in found:
                print(line, flush=True)


def main():
    reader = argparse.ArgumentParser()
    reader.add_argument("--edits", default="crates")
    reader.add_argument("--trees", type=int, default=2)
    reader.add_argument("names", nargs="*")
    asked = reader.parse_args()
    root = os.getcwd()
    with open("crates.txt", encoding="utf-8") as lines:
        order = [line.split(":")[0].split()[0] for line in lines if line.strip() and not line.startswith("#")]
    edits_of = {name: sorted(glob.glob(os.path.join(asked.edits, name, "must-fail", "*.edit"))) for name in asked.names or order}
    edits_of = {name: [os.path.abspath(edit) for edit in edits] for name, edits in edits_of.items() if edits}
    if not edits_of:
        print("no edits")
        return 2
    place = os.path.join(root, LOGS) if asked.edits == "crates" else os.path.join(os.path.abspath(asked.edits), "logs")
    shutil.rmtree(place, ignore_errors=True)
    tasks, said, lock, workers = queue.Queue(), [], threading.Lock(), []
    for name in order:
        if name in edits_of:
            tasks.put(name)
    with tempfile.TemporaryDirectory() as home:
        for at in range(min(asked.trees, len(edits_of))):
            tree = os.path.join(home, f"tree{at}")
            for name in order:
                for part in ("src", "specs", "proofs"):
                    if os.path.isdir(os.path.join(root, "crates", name, part)):
                        shutil.copytree(os.path.join(root, "crates", name, part), os.path.join(tree, "crates", name, part))
            shutil.copy(os.path.join(root, "crates.txt"), tree)
            os.mkdir(os.path.join(tree, ".git"))
            workers.append(threading.Thread(target=work, args=(tree, place, tasks, edits_of, said, lock)))
        for worker in workers:
            worker.start()
        for worker in workers:
            worker.join()
    tries = sum(len(edits) for edits in edits_of.values())
    count = sum(len(programs(edit)) for edits in edits_of.values() for edit in edits)
    print(f"{count} wrong programs in {tries} edits, {len(said)} not refused where they are wrong")
    return 1 if said else 0


if __name__ == "__main__":
    sys.exit(main())
