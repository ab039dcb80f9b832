"""What crates/*/specs define, by the comments above the definitions, in the order of .ci/definitions.txt.

The first comment of a file says what it is about and where it comes from: a line of the map. A comment with the definitions that it stands
above is a row of its crate. Code is each file of src/ that imports a definition. Tests and edits are those that .ci/definitions.txt names.

`.ci/pages --definitions` shows the map, `.ci/pages --definitions CRATE` the rows of a crate, and `.ci/pages` what is wrong.
"""
import re
import sys
from pathlib import Path

ROOT = Path(__file__).resolve().parent.parent
PLAN = ROOT / ".ci/definitions.txt"

HEAD = """\
Every clause of the repository is stated in these definitions, crates/CRATE/specs/FILE.antt, from words to the program. They are the whole
machine and the program around it. Numbers are whole and have no greatest value unless a comment says so. Sources are K&H (Kane and
Heinrich, "MIPS RISC Architecture", by chapter or appendix), KN02 (the "DECstation 5000/200 KN02 System Module Functional Specification"),
MC146818 (the data sheet of the clock), and own, a rule of this project. `.ci/pages --definitions CRATE` shows the definitions of a crate,
each with its source, and the code, tests and edits that hold it.
"""

PUB = r"pub(?:\(\w+\))? "
CHAPTERS = r"(?:chapters? \d+(?:(?:, | to | and )\d+)*|appendix [A-D])"


class Group:
    """Definitions under one comment, with their file."""

    def __init__(self, file, comment):
        self.file, self.comment, self.names = file, comment, []


class Specs:
    """A file of specs/: its first comment, its public definitions by comments, and what it imports from the code of its crate."""

    def __init__(self, path):
        self.name, self.head, self.groups = path.stem, "", []
        text = path.read_text()
        comment, taken = [], None
        for line in text.splitlines():
            if line.startswith("--"):
                comment.append(line[2:].strip())
                continue
            if comment and not self.head:
                self.head, comment = " ".join(comment), []
            elif comment:
                taken, comment = Group(self, " ".join(comment)), []
            if name := declared(line):
                if taken is None:
                    taken = Group(self, "")
                if not taken.names:
                    self.groups.append(taken)
                taken.names.append(name)
        own = rf"(?m)^use Rattle\.{path.parts[-3]}\.specs\.declared\.(\w+)\."
        self.types = [it for it in re.findall(own + r"(\w+)", text) if it[1] != "TheConstants"]
        self.constants = [(module, it) for module, names in re.findall(own + r"TheConstants\.\{(.*?)\}", text) for it in names.split(", ")]

    def names(self):
        return [name for group in self.groups for name in group.names]


def declared(line):
    """The name of the public definition that a line begins, if it begins one."""
    words = re.match(r"((?:(?:pub|abbrev|unfoldable|opaque|record|data) +)+)(?!use |mod )(\S+)(?= |$)", line)
    return words[2] if words and "pub" in words[1].split() else None


def named(text):
    """The sources that a comment names."""
    chapters = re.search(rf"Kane and Heinrich, ({CHAPTERS}(?:,? (?:and )?{CHAPTERS})*)", text)
    found = ["K&H " + re.sub(r"chapters? |appendix ", "", chapters[1])] if chapters else ["K&H"] * ("Kane and Heinrich" in text)
    return found + [it for it in ("KN02", "MC146818") if it in text]


def source(group):
    """Where the definitions under a comment come from: the comment says so, or else the first one of its file."""
    head = group.file.head
    found = named(group.comment) or named(head)
    if re.search(r"\(own, after", head):
        return "own, after " + ", ".join(found)
    says_own = lambda text: re.search(r"\(own|\b(?:is|are) own\b", text)
    is_own = not found or says_own(group.comment) or says_own(head) and not named(group.comment)
    return ", ".join(found + ["own"] * bool(is_own))


class Crate:
    """What .ci/definitions.txt says of a crate: its title, its files in order, what is of use to proofs alone, and what holds rules. The last
    two are lists of where it says so, a file, names, and tests and edits."""

    def __init__(self, name, title):
        self.name, self.title, self.files, self.proofs, self.rules = name, title, [], [], []

    def all_files(self):
        return [*self.files, *(file for _, file, names, _ in self.proofs if not names)]

    def is_for_proofs(self, file, name):
        return any(it == file and (not names or name in names) for _, it, names, _ in self.proofs)


def plan():
    """The crates, and what is wrong with the lines of .ci/definitions.txt."""
    crates, wrong = [], []
    for number, line in enumerate(PLAN.read_text().splitlines(), 1):
        words = line.split()
        if not words or words[0].startswith("#"):
            continue
        at = f".ci/definitions.txt:{number}"
        if words[0] == "crate":
            crates.append(Crate(words[1], " ".join(words[2:])))
        elif words[0] == "files":
            crates[-1].files = words[1:]
        elif words[0] == "proofs":
            crates[-1].proofs.append((at, words[1], words[2:], []))
        elif words[0] == "rule" and ":" in words:
            middle = words.index(":")
            crates[-1].rules.append((at, words[1], words[2:middle], words[middle + 1 :]))
        else:
            wrong.append(f"{at}: a line is 'crate NAME TITLE', 'files FILE..', 'proofs FILE NAME..' or 'rule FILE NAME.. : TEST.. EDIT..'")
    return crates, wrong


def test_of(name):
    """Returns the file of a test or a dialogue, and whether it has it."""
    if name.startswith("dialogues/"):
        _, stem, title = name.split("/")
        file = ROOT / f".ci/dialogues/{stem}.txt"
        return file, file.is_file() and f"\n[{title}]\n" in file.read_text()
    crate, *modules, function = name.split("::")
    file = ROOT / "crates" / crate / "src" / ("/".join(modules) + ".rt")
    return file, file.is_file() and re.search(rf"#\[test\](?:\n *(?:#\[|//).*)*\n *fn {function}\(", file.read_text())


def edit_of(crate, name):
    """The file of an edit that must fail, by its name, which has its crate before a slash where that is another."""
    owner, _, name = name.removesuffix(".edit").rpartition("/")
    folder = ROOT / "crates" / (owner or crate) / "must-fail"
    return next((it for it in (folder / f"{name}.edit", folder / f"more/{name}.edit.md") if it.exists()), None)


class Definitions:
    """All definitions, and what is wrong with .ci/definitions.txt."""

    def __init__(self):
        self.crates, self.wrong = plan()
        self.specs = {}
        for crate in self.crates:
            self.read(crate)
        for crate in self.crates:
            self.check(crate)
        known = {it.name for it in self.crates}
        for name in sorted({it.parent.parent.name for it in ROOT.glob("crates/*/specs/*.antt")} - known):
            self.wrong.append(f".ci/definitions.txt: says nothing of the crate {name}")

    def read(self, crate):
        folder = ROOT / "crates" / crate.name / "specs"
        listed = {*crate.all_files()}
        found = {it.stem for it in folder.glob("*.antt")} - {"Lib"}
        self.wrong += [f".ci/definitions.txt: {crate.name} has a file specs/{it}.antt that is not listed" for it in sorted(found - listed)]
        self.wrong += [f".ci/definitions.txt: {crate.name} has no file specs/{it}.antt" for it in sorted(listed - found)]
        for it in listed & found:
            self.specs[crate.name, it] = Specs(folder / f"{it}.antt")

    def check(self, crate):
        for at, file, names, held in crate.proofs + crate.rules:
            known = self.specs[crate.name, file].names() if (crate.name, file) in self.specs else []
            for name in {*names} - {*known}:
                elsewhere = [f"{c}/{it.name}" for (c, _), it in self.specs.items() if name in it.names()]
                self.wrong.append(f"{at}: {name} is not in crates/{crate.name}/specs/{file}.antt but in {' '.join(elsewhere) or 'none'}")
            for it in held:
                self.check_holder(at, crate, it)

    def check_holder(self, at, crate, name):
        if name.endswith(".edit"):
            if not edit_of(crate.name, name):
                same = [str(it.relative_to(ROOT)) for it in ROOT.glob(f"crates/*/must-fail/**/{Path(name).stem}.edit*")]
                self.wrong.append(f"{at}: there is no edit {name} of {crate.name} but {' '.join(same) or 'none'}")
        elif not test_of(name)[1]:
            function = name.rpartition("::")[2]
            same = [str(it.relative_to(ROOT)) for it in ROOT.glob("crates/acceptance*/src/**/*.rt") if f"fn {function}(" in it.read_text()]
            self.wrong.append(f"{at}: there is no test {name}; a function {function} stands in {' '.join(same) or 'no file of tests'}")

    def files(self, crate, names):
        """Those of these files of a crate that are there."""
        return [self.specs[crate.name, it] for it in names if (crate.name, it) in self.specs]

    def code(self, crate, file, names):
        """The files of src/ that import one of these definitions."""
        for source in sorted((ROOT / "crates" / crate.name / "src").glob("**/*.rt")):
            used = re.findall(rf"specs\.{file.name}\.(?:\{{([^}}]*)\}}|(\w+))", source.read_text())
            if {*names} & {it.strip() for one, other in used for it in (one or other).split(",")}:
                yield str(source.relative_to(ROOT))

    def held(self, crate, file, names):
        """The code, the tests and the edits that hold these definitions."""
        tests, edits = [], []
        for _, name, ruled, held in crate.rules:
            if name == file.name and {*ruled} & {*names}:
                for it in held:
                    if not it.endswith(".edit"):
                        tests.append(it)
                    elif path := edit_of(crate.name, it):
                        edits.append(str(path.relative_to(ROOT)))
        return {"code": list(self.code(crate, file, names)), "tests": tests, "edits": edits}

    def from_code(self, crate):
        """What the definitions of a crate use of its code: the types, each with its comment there, and the constants with their values."""
        files, constants = self.files(crate, crate.files), {}
        for module, name in dict.fromkeys(it for file in files for it in file.types):
            path = ROOT / "crates" / crate.name / f"src/{module}.rt"
            kind = rf"^ *(?:{PUB})?(?:struct|enum|trait|type) {name}\b"
            if found := re.search(rf"(?m)((?:^ *///.*\n)*)(?:^ *#\[.*\n)*{kind}", path.read_text()):
                yield f"{name} in src/{module}.rt: " + " ".join(it.strip()[3:].strip() for it in found[1].splitlines())
        for module, name in dict.fromkeys(it for file in files for it in file.constants):
            constants.setdefault(module, []).append(name)
        for module, names in constants.items():
            path = ROOT / "crates" / crate.name / f"src/{module}.rt"
            values = dict(re.findall(rf"(?m)^(?:{PUB})?const (\w+): [^=]*(= .*);$", path.read_text()))
            yield f"constants in src/{module}.rt: " + ", ".join(f"{it} {values.get(it, '')}" for it in names)

    def map(self):
        """Each file by its crate, with what it is about."""
        lines = [HEAD]
        for crate in self.crates:
            lines.append(f"{crate.name}: {crate.title}")
            lines += [f"    {it.name + ('*' if it.name not in crate.files else ''):15} {it.head}" for it in self.files(crate, crate.all_files())]
        return "\n".join([*lines, "", "* of use to proofs alone"]) + "\n"

    def rows(self, crate):
        """The definitions of a crate by their comments, and what they use of its code."""
        lines = [f"{crate.name}: {crate.title}"]
        for file in self.files(crate, crate.all_files()):
            lines.append(f"\ncrates/{crate.name}/specs/{file.name}.antt: {file.head}")
            for group in file.groups:
                use = ", of use to proofs alone" if all(crate.is_for_proofs(file.name, it) for it in group.names) else ""
                lines.append(f"\n    {', '.join(group.names)} ({source(group)}{use})")
                lines += [f"        {group.comment}"] if group.comment else []
                for what, those in self.held(crate, file, group.names).items():
                    lines += [f"        {what}: {' '.join(dict.fromkeys(those))}"] if those else []
        if used := list(self.from_code(crate)):
            lines += ["\nFrom the code:\n", *(f"    {it}" for it in used)]
        return "\n".join(lines) + "\n"

    def shown(self, names):
        """The map, or the rows of the crates that are named."""
        known = {it.name: it for it in self.crates}
        if unknown := [it for it in names if it not in known]:
            sys.exit(f".ci/pages: no crate {' '.join(unknown)} has definitions; crates are {' '.join(known)}")
        return "\n".join(self.rows(known[it]) for it in names) if names else self.map()
