"""The wrong answers of crates/NAME/must-fail and crates/NAME/alike: their files are read and carried out on copies, in which `rt check` looks at them.

usage: .ci/edits.py            whether each `old:` text stands once in its file, and each pair changes something; nothing is checked
"""

import concurrent.futures
import contextlib
import glob
import os
import re
import shutil
import subprocess
import sys
import tempfile

# what is said of a proof that names what is no longer there, or that rests on another that is refused
LACKS = re.compile(r"can be named from here|has no field|not in scope|has no `|was not admitted|was rejected|was not checked|exports no")
TOP = os.path.dirname(os.path.dirname(os.path.realpath(__file__)))


def beside():
    """How many checks run side by side: as RT_JOBS says, or one for each processor, where 3 GB of memory are free for each."""
    if os.environ.get("RT_JOBS", "").isdigit():
        return max(1, int(os.environ["RT_JOBS"]))
    with open("/proc/meminfo", encoding="ascii") as it:
        free = int(re.search(r"MemAvailable:\s+(\d+)", it.read())[1])
    return max(1, min(len(os.sched_getaffinity(0)), free // 3_000_000))


class Bad(Exception):
    """An edit that cannot be carried out."""


class Edit:
    """A file of wrong answers: `answers` is what is wrong beside the functions that must be refused, `pairs` the file, the old text and the new."""

    def __init__(self, path):
        self.path = os.path.relpath(os.path.join(TOP, path), TOP)
        _, self.crate, self.kind, _ = self.path.split("/")
        self.label = f"{self.kind} {self.crate}/{os.path.basename(path)[:-5]}"
        self.answers, self.pairs, self.proved, self.refused = [], [], [], []
        file = old = None
        with open(os.path.join(TOP, path), encoding="utf-8") as it:
            lines = it.read().splitlines()
        for number, line in enumerate(lines, 1):
            word, _, rest = line.partition(":")
            rest = rest.removeprefix(" ")
            if not line or line.startswith("#"):
                continue
            if word == "wrong":
                self.answers.append((rest, []))
            elif word == "in" and self.answers:
                self.answers[-1][1].extend(rest.split())
            elif word in ("proved", "refused"):
                getattr(self, word).extend(rest.split())
            elif word == "file":
                file = f"crates/{rest if self.kind == 'alike' else self.crate + '/' + rest}"
                if not re.fullmatch(r"crates/\w+/(src|specs)/[\w/]+\.(rt|antt)", file):
                    raise Bad(f"{self.path}:{number}: names no file of src/ or specs/")
            elif word == "old" and file and rest and old is None:
                old = rest
            elif word == "new" and old is not None:
                self.pairs.append((file, old, rest))
                old = None
            else:
                raise Bad(f"{self.path}:{number}: what stands here is not read")
        if old is not None or not self.pairs:
            raise Bad(f"{self.path}: no pair, or half a pair")

    def texts(self):
        """The texts that it makes, by file: of each pair in turn the old text has to stand once in its file."""
        made = {}
        for file, old, new in self.pairs:
            if file not in made:
                with open(os.path.join(TOP, file), encoding="utf-8") as it:
                    made[file] = it.read()
            if made[file].count(old) != 1:
                raise Bad(f"{self.path}: stands {made[file].count(old)} times in {file}, and not once: {old}")
            if old == new:
                raise Bad(f"{self.path}: changes nothing: {old}")
            made[file] = made[file].replace(old, new)
        return made

    def room(self, kept):
        """A room in which the edit is carried out."""
        return room(self.texts(), below(), kept)

    def keep(self, said):
        """Leaves what the check said in the crate's out/, by the kind and the name of the edit."""
        folder = os.path.join(TOP, "crates", self.crate, "out", self.kind)
        os.makedirs(folder, exist_ok=True)
        with open(os.path.join(folder, os.path.basename(self.path) + ".log"), "w", encoding="utf-8") as it:
            it.write(said)

    def check(self, kept, *flags):
        """What `rt check` says of the crate in such a room."""
        with self.room(kept) as room:
            return checked(os.path.join(room, "crates", self.crate), *flags)


@contextlib.contextmanager
def room(made, libraries, kept):
    """A repository of its own, with the texts `made` in place of those of the same files. The libraries come with it as they were built, and of the crates
    `kept` what a check left in out/, so that what the texts don't touch is not proved again."""
    with tempfile.TemporaryDirectory(prefix="edited-") as at:
        shutil.copy(os.path.join(TOP, "crates.txt"), at)
        for name in os.listdir(os.path.join(TOP, "crates")):
            for part in ("src", "specs", "proofs", *["out/rlib"] * (name in libraries), *["out/incremental"] * (name in kept)):
                source = os.path.join(TOP, "crates", name, part)
                if os.path.isdir(source):
                    shutil.copytree(source, os.path.join(at, "crates", name, part), copy_function=link if part.startswith("out") else shutil.copyfile)
        for file, text in made.items():
            with open(os.path.join(at, file), "w", encoding="utf-8") as it:
                it.write(text)
        yield at


def link(source, to):
    """What was proved gets a second name: a check puts another file in its place and never writes into it. All else is copied."""
    try:
        if source.endswith(".oantt") or "/rlib/" in source:
            return os.link(source, to)
    except OSError:
        pass
    return shutil.copy2(source, to)


def checked(folder, *flags):
    """What `rt check` says in a crate's folder."""
    ran = subprocess.run(["rt", "check", *flags], cwd=folder, stdin=subprocess.DEVNULL, stdout=subprocess.PIPE, stderr=subprocess.STDOUT, encoding="utf-8", errors="replace")
    return ran.stdout


def is_proved(said):
    return bool(re.search(r"^logic=proved", said, re.M))


def below():
    """The crates of crates.txt, lowest first, and those of the repository that each is built on."""
    with open(os.path.join(TOP, "crates.txt"), encoding="utf-8") as it:
        named = {name: rest.split() for name, rest in re.findall(r"^(\w+):(.*)", it.read(), re.M)}

    def all_of(name):
        return {it for direct in named[name] if direct in named for it in [direct, *all_of(direct)]}

    return dict(sorted(((name, all_of(name)) for name in named), key=lambda it: len(it[1])))


def proved(crate, libraries):
    """Whether a crate is proved as it stands, over libraries as they were built. It is checked in a room, since a check keeps others out of the crates below;
    what it has made and kept comes back to the crate's out/."""
    with room({}, libraries, [crate]) as at:
        inside, to = (os.path.join(it, "crates", crate, "out") for it in (at, TOP))
        is_program = os.path.isfile(os.path.join(TOP, "crates", crate, "src", "main.rt"))
        ran = subprocess.run(["rt", "check" if is_program else "lib", "--jobs", "1"], cwd=os.path.dirname(inside), stdin=subprocess.DEVNULL, stdout=subprocess.PIPE, stderr=subprocess.STDOUT, check=False)
        if ran.returncode:
            print(ran.stdout[-2000:].decode(errors="replace"), flush=True)
            return False
        for part in ("rlib", "incremental"):
            if os.path.isdir(os.path.join(inside, part)):
                shutil.rmtree(os.path.join(to, part), ignore_errors=True)
                shutil.move(os.path.join(inside, part), os.path.join(to, part))
    return True


def prove(names):
    """Proves these crates, or all, with those below them, side by side: what edits are tried over. Returns those that are not proved."""
    libraries, tasks = below(), {}
    wanted = {it for name in names or libraries for it in [name, *libraries[name]]}

    def one(crate):
        # (those below were handed in before it, so some task always goes on)
        return all(tasks[it].result() for it in libraries[crate]) and proved(crate, libraries[crate])

    with concurrent.futures.ThreadPoolExecutor(beside()) as pool:
        for crate in libraries:
            if crate in wanted:
                tasks[crate] = pool.submit(one, crate)
        return [it for it, task in tasks.items() if not task.result()]


def of(kind, crate="*"):
    """The edits of a kind, of one crate or of all."""
    found = sorted(glob.glob(f"{TOP}/crates/{crate}/{kind}/*.edit"))
    return [Edit(os.path.relpath(it, TOP)) for it in found]


def main():
    edits = answers = pairs = faults = 0
    for kind in ("must-fail", "alike"):
        for path in sorted(glob.glob(f"{TOP}/crates/*/{kind}/*.edit")):
            edits += 1
            try:
                edit = Edit(os.path.relpath(path, TOP))
                edit.texts()
                answers += len(edit.answers)
                pairs += len(edit.pairs)
            except Bad as it:
                print(it)
                faults += 1
    print(f"{edits} edits, {answers} wrong answers, {pairs} pairs, {faults} faults")
    return faults > 0


if __name__ == "__main__":
    sys.exit(main())
