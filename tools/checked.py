"""Checks of changed crates, for tools/refused and tools/faults: a crate and those below it are copied to a temporary
folder with what rt keeps of them, rt check judges the copy, and what it says is read function by function."""

import hashlib, os, pathlib, re, shutil, signal, subprocess, tempfile

ROOT = pathlib.Path(__file__).resolve().parent.parent

# A name that leads nowhere is no fact.
OF_NAME = re.compile(r"is not in scope|has no field|has no `|that can be named from here|no module, record or data type")
# What only says that something else failed.
FOLLOWS = re.compile(r"not admitted, |was not admitted|were not admitted|not checked")
ERROR = re.compile(r"(?:\./)?((?:src|specs|proofs)/\S*?):\d+:\d+: error: (?:`([^`]*)`)?(.*)")


def read_crates():
    """The crates of crates.txt, each with its line and with those of ours that it uses."""
    found = {}
    for line in (ROOT / "crates.txt").read_text().splitlines():
        if ":" in line and not line.startswith("#"):
            head, uses = line.split(":")
            found[head.split()[0]] = (line, uses.split())
    return found


CRATES = read_crates()


def below(crate, found=None):
    """The crates of ours below a crate, each after those that it uses."""
    found = [] if found is None else found
    for use in CRATES[crate][1]:
        if use in CRATES and use not in found:
            below(use, found)
            found.append(use)
    return found


def state_of(crate):
    """A digest of all that a check of the crate reads."""
    digest = hashlib.sha256(subprocess.run(["rt", "version"], stdout=subprocess.PIPE, check=True).stdout)
    for name in [*below(crate), crate]:
        digest.update(CRATES[name][0].encode())
        for part in ("src", "specs", "proofs"):
            for path in sorted((ROOT / "crates" / name / part).rglob("*")):
                if path.is_file():
                    digest.update(f"\n{path.relative_to(ROOT)} {hashlib.sha256(path.read_bytes()).hexdigest()}".encode())
    return digest.hexdigest()


def of_impl(line):
    """How the prover names an impl by its first line, `U16Field` for `impl Field for u16 {`, and the trait, if there is one."""
    while (plain := re.sub(r"<[^<>]*>", "", line)) != line:
        line = plain
    trait, _, type_ = line.removeprefix("impl").removesuffix("{").strip().rpartition(" for ")
    return type_[0].upper() + type_[1:] + trait, trait


def link(one, other):
    """What was proved is replaced by a check, and never changed, so that a second name will do."""
    if one.endswith(".oantt") or "/rlib/" in one:
        try:
            return os.link(one, other)
        except OSError:
            pass
    return shutil.copy2(one, other)


class Copy:
    """A copy of some crates and those below them, with what rt keeps of them, in a temporary folder."""

    def __init__(self, *wanted, limit=None):
        self.folder, self.limit = pathlib.Path(tempfile.mkdtemp(prefix=f"checked-{wanted[0]}-")), limit
        (self.folder / ".git").mkdir()
        names = list(dict.fromkeys(name for crate in wanted for name in [*below(crate), crate]))
        (self.folder / "crates.txt").write_text("".join(CRATES[name][0] + "\n" for name in names))
        for name in names:
            for part in ("src", "specs", "proofs", "out/rlib", "out/incremental"):
                here, there = ROOT / "crates" / name / part, self.folder / "crates" / name / part
                if here.is_dir():
                    shutil.copytree(here, there, copy_function=link)

    def check(self, crate, texts={}, anew=False):
        """The exit status of rt check, and what it said, with these texts of the crate's files in place of its own. No
        status: the time ran out. It begins with what the check of the crate as it stands kept, or else with nothing."""
        at = self.folder / "crates" / crate
        kept, base = at / "out/incremental", self.folder / "base" / crate
        if base.exists() or anew:
            shutil.rmtree(kept, ignore_errors=True)
        if base.exists() and not anew:
            shutil.copytree(base, kept, copy_function=link)
        was = {file: (at / file).read_text() for file in texts}
        try:
            for file, text in texts.items():
                (at / file).write_text(text)
            words = ["rt", "check", "--jobs", "1"]
            how = {"cwd": at, "stdin": subprocess.DEVNULL, "stdout": subprocess.PIPE, "stderr": subprocess.STDOUT}
            run = subprocess.Popen(words, start_new_session=True, **how)
            try:
                said = run.communicate(timeout=self.limit)[0].decode(errors="replace")
            except subprocess.TimeoutExpired:
                os.killpg(run.pid, signal.SIGKILL)
                run.communicate()
                return None, ""
        finally:
            for file, text in was.items():
                (at / file).write_text(text)
        if not texts and not anew and run.returncode == 0:
            base.parent.mkdir(exist_ok=True)
            shutil.copytree(kept, base, copy_function=link)
        return run.returncode, said

    def remove(self):
        shutil.rmtree(self.folder, ignore_errors=True)


class Said:
    """What rt check said of a crate that is not proved.

    open     the functions of which `search` did not prove a goal
    own      the functions with an error in their own proof files that is one itself
    lacks    the functions whose proof files name what is not there
    waits    the functions that are not proved, whatever for
    errors   each error that is one itself, as `FILE: NAME`
    false    the functions with a goal that is false at values that the prover found
    refused  the functions that are refused for a fact: where a proof file names what is not there, an open goal may be
             the one that it answers, under another name, and counts for nothing unless it is false"""

    def __init__(self, crate, log):
        self.is_refused = bool(re.search("^logic=not-proved", log, re.M))
        self.open, self.own, self.lacks, self.waits, self.errors, self.of_name = set(), set(), set(), set(), set(), False
        self.false, is_false = set(), False
        # Where a record's name is long, what it lacks stands in the line after it.
        for line in re.sub(r"(?m)(: error: .*)\n  (has no )", r"\1 \2", log).split("\n"):
            # What is told of a function's goals stands before its own line.
            is_false |= bool(re.match(r"note: src/\S+: it is not proved that .* the facts known there allow values at which this goal is false", line))
            answer = re.match(r"fn (\S+): (no proof|not proved)", line)
            if answer:
                name = answer[1][len(crate) + 2 :]
                self.waits.add(name)
                if "`search` did not prove `" in line:
                    self.open.add(name)
                if is_false:
                    self.false.add(name)
            if re.match(r"(fn|enum|struct) ", line):
                is_false = False
            error = ERROR.match(line)
            if error and not FOLLOWS.search(error[3]):
                at, is_name = error[1], bool(OF_NAME.search(error[3]))
                self.errors.add(f"{at}: {error[2]}")
                self.of_name |= is_name
                function = re.match(r"proofs/(.*)/(?:Answers|Invariants|Proof)\.antt$", at)
                if function:
                    name = re.sub(r"(^|/)\+[^/]*/", r"\1", function[1]).replace("/", "::")
                    (self.lacks if is_name else self.own).add(name)
        self.refused = self.own | self.false | self.open - self.lacks
