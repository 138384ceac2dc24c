#!/usr/bin/env python3
"""docs/RULES.md beside the rules: every definition that it names exists, and every file of the rules is named."""
import os
import re
import sys

ROOT = os.path.dirname(os.path.dirname(os.path.abspath(__file__)))
SPECS = os.path.join(ROOT, "crates", "rules", "specs")
PAGE = os.path.join(ROOT, "docs", "RULES.md")


def read(path):
    with open(path, encoding="utf-8") as file:
        return file.read()


def definitions(path):
    """What a file declares for others: values with a signature, records and data, constructors left out."""
    text = re.sub(r"--.*", "", read(path))
    values = re.findall(r"^(?:abbrev |unfoldable )?pub ([^\s:]+) :", text, flags=re.M)
    types = re.findall(r"^pub (?:record|data) (\S+)", text, flags=re.M)
    return set(values) | set(types)


def main():
    files = {name[:-len(".antt")]: os.path.join(SPECS, name) for name in os.listdir(SPECS) if name.endswith(".antt")}
    page = read(PAGE)
    named = re.findall(r"`([A-Z][A-Za-z]*)\.([^\s`]+)`", page)
    bad = []
    for file, name in sorted(set(named)):
        if file not in files:
            bad.append("`%s.%s`: there is no crates/rules/specs/%s.antt" % (file, name, file))
        elif name not in definitions(files[file]):
            bad.append("`%s.%s`: crates/rules/specs/%s.antt has no such definition" % (file, name, file))
    for file in sorted(set(files) - {"Lib"} - {file for file, _ in named}):
        bad.append("nothing of crates/rules/specs/%s.antt is named" % file)
    if len(set(named)) < 100:
        bad.append("only %d definitions are named: is the page whole?" % len(set(named)))
    for line in bad:
        print("tests/rules.py: docs/RULES.md: " + line, file=sys.stderr)
    if not bad:
        print("rules: %d definitions named, of %d files" % (len(set(named)), len(files) - 1))
    return 1 if bad else 0


if __name__ == "__main__":
    sys.exit(main())
