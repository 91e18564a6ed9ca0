#!/usr/bin/env python3
"""Compares the words that the script vcat knows of with those of the programs, and says on standard error what isn't right; .ci/docs runs it.

- The commands of vcat are those of the usages of the programs, with view, report, phases and the commands of tools/, and docs/COMMANDS.md tells of each.
- Each word of a command that is a number has its range there.
- The lines of each language are those that its crate has a keyword for.
"""

import pathlib
import re
import sys

TOP = pathlib.Path(__file__).resolve().parent.parent
USAGES = {"vcat_walk": "command_walk/src/command_of_words.rt", "vcat_run": "command_run/src/top_call.rt"}
KEYWORDS = {
    "script": "text_scripts/src/script_read/script_keyword.rt",
    "live": "text_live/src/live_keyword.rt",
    "live-pair": "text_live/src/live_keyword.rt",
    "noise": "gfp_noise/src/noise_link/noise_keyword.rt",
    "channels": "gfp_channels/src/channel_link/channel_keyword.rt",
    "au4": "member_au4/src/au4_link/au4_keyword.rt",
}
faults = []


def text(place):
    return (TOP / place).read_text("utf-8")


def compare(what, mine, theirs):
    for name in sorted(set(mine) ^ set(theirs)):
        faults.append(f"words: {what}: {name} stands {'there' if name in mine else 'in the program'} alone")


def rows(table):
    """The rows of a table of vcat, each cut into its columns."""
    body = re.search(rf"^{table}\(\) {{\n    cat << '(\w+)'\n(.*?)^\1$", text("vcat"), flags=re.M | re.S)[2]
    return [line.split(" | ") if " | " in line else line.split() for line in body.splitlines()]


def forms_of(form):
    """A form without the words that may be left out, and with each that may stand there."""
    match = re.search(r" \[(.*?)\]", form)
    if not match:
        return {form}
    words = ("", *(" " + word for word in match[1].split("|")))
    return {each for word in words for each in forms_of(form.replace(match[0], word))}


def main():
    commands = [(crate, form.removesuffix(" FILE")) for crate, form, _ in rows("commands")]
    numbers = {name for name, _, _ in rows("ranges")}
    for program, place in USAGES.items():
        usage = re.search(rf'"usage: {program} (.*?)\\n"', re.sub(r"\\\n\s*", "", text(f"crates/{place}")))[1]
        mine = set()
        for crate, form in commands:
            if crate == program and form.split()[0] not in ("view", "report", "phases"):
                mine |= forms_of(form)
        compare(f"the commands of {program} in vcat", mine, re.split(r", or |, | or ", usage))
        for word in re.findall(r"\b[A-Z]+\b", usage):
            if word not in numbers:
                faults.append(f"words: vcat has no range of {word}")
    for form in (each for _, form in commands for each in forms_of(form)):
        if not re.search(rf"^\| [^|]*`{re.escape(form)}`|`\./vcat {form.split()[0]}\b", text("docs/COMMANDS.md"), flags=re.M):
            faults.append(f"words: docs/COMMANDS.md doesn't tell of {form}")
    for language, place in KEYWORDS.items():
        mine = {form.split()[0] for languages, form, _ in rows("forms") if language in languages.split()}
        compare(f"the lines of {language} in vcat", mine, re.findall(r'spells\(word, b"(\w+)"', text(f"crates/{place}")))
    for line in faults:
        print(line, file=sys.stderr)
    return 1 if faults else 0


if __name__ == "__main__":
    sys.exit(main())
