#!/usr/bin/env python3
"""Checks README and docs against the tree, and says on standard error what isn't right; .ci/docs runs it.

- docs/CRATES.md is what docs/lists.py writes, and crates.txt has each folder of crates/ in the section that its name begins with.
- Each link leads to a file, and its # part to a heading.
- What a page shows as antt stands so in the tree, but for comments.
- Each path and each name in backticks is there. In `call` of `crate` the crate has the call, and in `call`: `clause` the call has the clause.
- The gate's time and the number of edits are the same everywhere.
- No page and no table cell is longer than it may be.
- The page of view knows the first words of a script's lines that the program knows.
"""

import pathlib
import re
import sys

sys.dont_write_bytecode = True
sys.path.insert(0, str(pathlib.Path(__file__).resolve().parent))
import lists

TOP = lists.TOP
PAGES = ["README.md", "CHANGELOG.md", "bench/README.md"] + sorted(f"docs/{path.name}" for path in (TOP / "docs").glob("[!.]*.md"))

# The most words of a page, of README and docs together, and of a cell of a table.
MOST = {"README.md": 1050, "docs/ARCHITECTURE.md": 1800, "docs/PROVED.md": 3500, "docs/DECISIONS.md": 3500, "docs/GLOSSARY.md": 1900, "docs/SCRIPT.md": 6000}
MOST_IN_ALL = 37500
MOST_IN_CELL = 40

# What stands in backticks, isn't in the tree and is right all the same: pages and folders of the toolchain, and other tools.
EXCEPTIONS = set(
    """
    LANGUAGE.md CONTRACTS.md CONTRACT_STYLE.md GUIDELINES.md FIRST_PROOFS.md std/COMMON.md SHORTER_PROOFS.md docs/BORROWS.md FORMS.md
    out/incremental perf mergecap sbatch slurmctld slurmd
    """.split()
)

CODE = re.compile(r"`([^`\n]+)`")
faults = []


def fault(page, what):
    faults.append(f"docs: {page}: {what}")


# ---- the tree


class Tree:
    """What stands in the tree: files, words, and of each crate its calls with their clauses."""

    def __init__(self):
        self.files, self.words, self.shown = set(), set(), []
        self.calls, self.records, self.named, self.of_crate = {}, {}, {}, {}
        for path in TOP.rglob("*"):
            place = path.relative_to(TOP)
            if place.parts[0] == ".git" or "out" in place.parts or not path.is_file():
                continue
            self.files.add(str(place))
            if path.suffix in (".rt", ".antt"):
                self.read(place.parts[1], place.stem, path.read_text("utf-8"))
            elif path.suffix not in (".png", ".pcap", ".md", ".svg"):
                self.words.update(re.findall(r"[A-Za-z_]\w*", path.read_text("utf-8", "replace")))
        self.folders = {str(parent) for file in self.files for parent in pathlib.PurePath(file).parents}
        for place in self.files | self.folders:
            self.words.update(re.split(r"[./]", place))

    def read(self, crate, stem, text):
        bare = re.sub(r"^\s*(//|--).*$", "", text, flags=re.M)
        words = set(re.findall(r"[A-Za-z_]\w*", bare))
        self.words.update(words)
        self.shown.append(" ".join(bare.split()))
        self.of_crate.setdefault(crate, set()).update(words | {stem})
        for match in re.finditer(r"^(?:pub )?(?:record|data)(?: pub)? (\w+).*?(?=^\S|\Z)", bare, flags=re.M | re.S):
            self.records.setdefault(match[1], set()).update(re.findall(r"^\s+(?:pub )?(\w+) :", match[0], flags=re.M))
            self.named.setdefault(match[1], set()).update(re.findall(r"\b[A-Z]\w+", match[0]))
        if "fn " not in bare:
            return
        owner = ""
        for match in re.finditer(r"^(?:pub )?(?:impl|trait)\b([^{\n]*)|\bfn (\w+)", bare, flags=re.M):
            if match[2] is None:
                head = re.sub(r"<[^<>]*>", "", match[1]).replace("for", " for ")
                owner = re.findall(r"\w+", head)[-1] if re.findall(r"\w+", head) else ""
                continue
            end = re.compile(r"\bfn \w+|^\s*(?:pub )?(?:impl|trait)\b", flags=re.M).search(bare, match.end())
            body = bare[match.end(): end.start() if end else len(bare)]
            said = set(re.findall(r"\bensures (\w+) \{", body)), set(re.findall(r"\b[A-Z]\w+", body))
            indented = bare[bare.rfind("\n", 0, match.start()) + 1: match.start()].startswith(" ")
            names = [match[2]] + ([f"{owner}::{match[2]}"] if indented else [])
            for name in [(place, name) for place in ("", crate) for name in names]:
                clauses, types = self.calls.setdefault(name, (set(), set()))
                clauses.update(said[0])
                types.update(said[1])

    def clauses(self, call):
        """The clauses of a call of a crate, and the named facts of the records in them, and of those in these."""
        clauses, types = self.calls[call]
        found, seen = set(clauses), set()
        for _ in range(3):
            types = {name for name in types if name in self.records and name not in seen}
            seen |= types
            for name in types:
                found |= self.records[name]
            types = set().union(*(self.named.get(name, ()) for name in types))
        return found


# ---- pages


def prose(text):
    """A page without its blocks of code."""
    return re.sub(r"^```.*?^```", "", text, flags=re.M | re.S)


def anchors(text):
    """What the headings of a page are linked by."""
    return {re.sub(r"[^\w\- ]", "", title.lower()).replace(" ", "-") for title in re.findall(r"^#+ (.*)$", prose(text), flags=re.M)}


def check_links(page, text):
    for target in re.findall(r"\]\(([^)\s]+)\)", prose(text)):
        if re.match(r"\w+:", target):
            continue
        place, _, part = target.partition("#")
        path = (TOP / page).parent / place if place else TOP / page
        if not path.exists():
            fault(page, f"the link {target} leads nowhere")
        elif part and part not in anchors(path.read_text("utf-8")):
            fault(page, f"the link {target} leads to no heading")


def check_shown(tree, page, text):
    for block in re.findall(r"^```antt\n(.*?)^```", text, flags=re.M | re.S):
        wanted = " ".join(block.split())
        if not any(wanted in there for there in tree.shown):
            fault(page, f"no file has this: {wanted[:60]} ..")


def is_path(word):
    return re.fullmatch(r"[\w.*/-]*\w[\w.*/-]*", word) and ("/" in word or re.search(r"\.(rt|antt|md|sh|py|vcat|txt|svg|png|html|edit)$", word))


def check_path(tree, page, word):
    plain = re.sub(r"\bNAME\b", "*", word.rstrip("/").removeprefix("./"))
    wanted = re.compile(re.escape(plain).replace(r"\*", "[^/]*"))
    for place in tree.files | tree.folders:
        if wanted.fullmatch(place) or (len(place) > len(plain) and wanted.fullmatch(place[len(place) - len(plain):]) and place[-len(plain) - 1] == "/"):
            return
    if "*" in plain and any(wanted.fullmatch(place[place.find(plain.split("/")[0]):]) for place in tree.files if plain.split("/")[0] in place):
        return
    fault(page, f"there is no {word}")


def names_in(span):
    """The names that a span cites: a name, a path of names, or nothing if it is something else: a command, a commit, a word to fill in."""
    if span.isupper() or re.fullmatch(r"(?=.*\d)[0-9a-f]{8}", span) or not re.fullmatch(r"[A-Za-z_]\w*((::|\.)\w+)*", span):
        return []
    return re.split(r"::|\.", span)


def check_spans(tree, page, text):
    for span in CODE.findall(text):
        span = span.strip()
        if span in EXCEPTIONS:
            continue
        if is_path(span):
            check_path(tree, page, span)
            continue
        for name in names_in(span):
            if name not in tree.words and not name.isdigit():
                fault(page, f"there is no `{name}` (in `{span}`)")


LIST = r"`[\w:]+`(?:(?:,| and) `[\w:]+`)*"
CALLS = rf"{LIST}(?: of `[\w:]+`)?"


def check_cited(tree, page, text):
    flat = re.sub(r"\s+", " ", text)
    for these, crate in re.findall(rf"({LIST}) of `(\w+(?:::\w+)?)`", flat):
        crate = crate.split("::")[0]
        if crate not in tree.of_crate:
            continue
        for span in re.findall(r"`([\w:]+)`", these):
            if not set(span.split("::")) <= tree.of_crate[crate]:
                fault(page, f"`{span}` isn't in `{crate}`")
    for calls, sign, clauses in re.findall(rf"({CALLS}(?:; {CALLS})*)( \||:) ({LIST})", flat):
        is_strict = sign == " |" and "| Clauses |" in flat
        known = set()
        for these, crate in re.findall(rf"({LIST})(?: of `([\w:]+)`)?", calls):
            crate = crate.split("::")[0]
            for call in [(crate, call) for call in re.findall(r"`([\w:]+)`", these)]:
                if call in tree.calls:
                    known |= tree.clauses(call)
        for clause in re.findall(r"`([\w:]+)`", clauses) if known else []:
            is_other = ("", clause) in tree.calls or clause[0].isupper()
            if clause not in known and (is_strict or not is_other):
                fault(page, f"`{clause}` is no clause of {calls}")


def check_lengths(page, text):
    words = len(text.split())
    if words > MOST.get(page, words):
        fault(page, f"{words} words, {MOST[page]} are allowed")
    for line in prose(text).splitlines():
        if line.startswith("|"):
            for cell in line.strip("|").split(" | "):
                if len(cell.split()) > MOST_IN_CELL:
                    fault(page, f"a cell of {len(cell.split())} words: {cell.strip()[:60]} ..")
    return words if page not in ("CHANGELOG.md", "bench/README.md") else 0


def check_gate():
    """README, CONTRIBUTING and vcat say of the gate's time what TESTED says in bold letters, and TESTED how many edits edits/whole-run.txt counts."""
    tested, whole = (TOP / "docs/TESTED.md").read_text("utf-8"), TOP / "edits/whole-run.txt"
    for page in ("README.md", "docs/CONTRIBUTING.md", "vcat"):
        for time in re.findall(r"\*\*(\d+ minutes on .*?)\*\*", tested):
            if time not in (TOP / page).read_text("utf-8"):
                fault(page, f"it does not say that the gate takes {time}")
    if whole.exists():
        count = sum(int(line.split()[3]) for line in whole.read_text("utf-8").splitlines())
        if f"{count} edits" not in tested:
            fault("docs/TESTED.md", f"it does not say that edits/whole-run.txt has {count} edits")


def check_sections():
    found, uses = lists.sections()
    for section, _, names in found:
        for name in names:
            if not name.startswith(section + "_"):
                fault("crates.txt", f"{name} stands in the section {section}")
    for name in sorted(set(uses) ^ {path.name for path in (TOP / "crates").iterdir() if path.is_dir()}):
        fault("crates.txt", f"{name} stands there alone, or in crates/ alone")


def check_words():
    """The page of view knows the words that may begin a line of a script, as the program does, and no others."""
    program = (TOP / "crates/text_scripts/src/script_read/script_keyword.rt").read_text("utf-8")
    page = (TOP / "view/texts.js").read_text("utf-8")
    known = set(re.findall(r'spells\(word, b"(\w+)"', program))
    for word in sorted(known ^ set(re.findall(r'"([a-z]+)"', page[page.index("const EVENTS"):page.index("function readScript")]))):
        fault("view/texts.js", f"the word {word} stands there alone, or in the program alone")


def main():
    check_sections()
    check_gate()
    check_words()
    for page, made in lists.PAGES.items():
        if not (TOP / page).exists() or (TOP / page).read_text("utf-8") != made():
            fault(page, "not what docs/lists.py writes: run python3 docs/lists.py")
    tree = Tree()
    total = 0
    for page in PAGES:
        text = (TOP / page).read_text("utf-8")
        check_links(page, text)
        check_shown(tree, page, text)
        check_spans(tree, page, prose(text))
        if page not in lists.PAGES:
            check_cited(tree, page, prose(text))
        total += check_lengths(page, text)
    if total > MOST_IN_ALL:
        fault("README.md and docs", f"{total} words, {MOST_IN_ALL} are allowed")
    for line in dict.fromkeys(faults):
        print(line, file=sys.stderr)
    return 1 if faults else 0


if __name__ == "__main__":
    sys.exit(main())
