#!/usr/bin/env python3
"""The manual page beside the header: every function is in it with the same arguments and the same order of refusals, every refusal number is, the structs have the same sizes and fields, a record's
fields the same places, and what the host owes is told in the same words."""
import os
import re
import sys

ROOT = os.path.dirname(os.path.dirname(os.path.abspath(__file__)))


def read(name):
    with open(os.path.join(ROOT, name), encoding="utf-8") as file:
        return file.read()


def squeezed(text):
    return re.sub(r"\s+", " ", text).strip()


def prototypes_of_header(text):
    """Name to prototype, of calls and inline functions."""
    text = re.sub(r"/\*.*?\*/", "", text, flags=re.S)
    found = {}
    pattern = r"^((?:EGRYNNOL_INLINE (?:EGRYNNOL_USE_ANSWER )?)?)([a-z_ ]+[ *]+)(egrynnol_\w+)\(([^)]*)\)\s*(?:EGRYNNOL_CALL|\{)"
    for _, answer, name, arguments in re.findall(pattern, text, flags=re.M):
        found[name] = squeezed("%s%s(%s)" % (answer, name, arguments))
    return found


def joined(line):
    """A line of .BI as it is printed: its words, quoted or not, one behind the other."""
    return "".join(quoted or bare for quoted, bare in re.findall(r'"([^"]*)"|(\S+)', line))


def prototypes_of_manual(text):
    synopsis = text[text.index(".SH SYNOPSIS"):text.index(".SH DESCRIPTION")]
    found = {}
    for paragraph in synopsis.split(".PP\n"):
        lines = [joined(line[len(".BI "):]) for line in paragraph.split("\n") if line.startswith(".BI ")]
        prototype = squeezed(" ".join(lines)).rstrip(";")
        name = re.search(r"(egrynnol_\w+)\(", prototype)
        if name:
            found[name.group(1)] = prototype
    return found


def owed_of_header(text):
    part = text[text.index("WHAT THE HOST OWES."):]
    part = part[part.index("\n"):part.index("*/")]
    return [squeezed(item) for item in re.sub(r"\n \* ?", "\n", part).split("\n- ")[1:]]


def owed_of_manual(text):
    part = text[text.index(".SS What the host owes"):text.index(".SS egrynnol_opening")]
    items = part.split(".IP \\(bu 3\n")[1:]
    return [squeezed(re.sub(r"^\.B ", "", item, flags=re.M)) for item in items]


ORDER = re.compile(r"Refusals, in this order: (.*?)\.(?= |$)")


def orders_of_header(text):
    """Name to the order of its refusals."""
    comments = re.findall(r"/\*\n \* (egrynnol_\w+) - (.*?)\*/", text, flags=re.S)
    found = {name: ORDER.search(squeezed(comment.replace("\n *", "\n"))) for name, comment in comments}
    return {name: order.group(1) for name, order in found.items() if order}


def orders_of_manual(text):
    sections = re.split(r"^\.S[SH] ", text, flags=re.M)
    found = {section.split("\n")[0]: ORDER.search(squeezed(section)) for section in sections}
    return {name: order.group(1) for name, order in found.items() if order}


def numbers_of_header(text):
    body = text[text.index("enum egrynnol_refusal {"):]
    return re.findall(r"= (\d+)", body[:body.index("};")])


def numbers_of_manual(text):
    part = text[text.index(".SH REFUSALS"):text.index(".SH EXAMPLES")]
    return re.findall(r"^\.B (\d+)$", part, flags=re.M)


def sizes_of_header(text):
    """The structs whose sizes the header checks."""
    return dict(re.findall(r"sizeof\(egrynnol_(\w+)\) == (\d+)", text))


def sizes_of_manual(text):
    found = re.findall(r"^typedef struct \{ +/\* ([\d,]+) octets \*/\n[^}]*\} egrynnol_(\w+);", text, flags=re.M)
    return {name: size.replace(",", "") for size, name in found}


def fields_of(text):
    """Name to the names of its fields, in their order, of each struct."""
    text = re.sub(r"/\*.*?\*/", "", text, flags=re.S)
    found = re.findall(r"^typedef struct (?:\w+ )?\{([^}]*)\} (egrynnol_\w+);", text, flags=re.M)
    return {name: re.findall(r"(\w+)(?:\[\w+\])?(?=[,;])", body) for body, name in found}


def offsets_of_header(text):
    return re.findall(r"^#define EGRYNNOL_AT_\w+ (\d+)\b", text, flags=re.M)


def offsets_of_manual(text):
    part = text[text.index(".SH RECORDS"):text.index("The causes of a loss")]
    return re.findall(r"^\.B (\d+)$", part, flags=re.M)


def main():
    header, manual = read("include/egrynnol.h"), read("man/egrynnol.3")
    bad = []
    ours, theirs = prototypes_of_header(header), prototypes_of_manual(manual)
    name_section = manual[manual.index(".SH NAME"):manual.index(".SH SYNOPSIS")]
    for name in sorted(set(ours) | set(theirs)):
        if ours.get(name) != theirs.get(name):
            bad.append("%s: the header has %r, the manual %r" % (name, ours.get(name), theirs.get(name)))
        if not re.search(r"\b%s\b" % name, name_section) or not re.search(r"^\.SS .*\b%s\b" % name, manual, flags=re.M):
            bad.append("%s: not under NAME, or with no section of its own" % name)
    for what, one, other in (("the orders of refusals", orders_of_header(header), orders_of_manual(manual)),
                             ("the refusal numbers", numbers_of_header(header), numbers_of_manual(manual)),
                             ("the sizes of structs", sizes_of_header(header), sizes_of_manual(manual)),
                             ("the fields of structs", fields_of(header), fields_of(manual)),
                             ("the places of a record's fields", offsets_of_header(header), offsets_of_manual(manual))):
        if one != other or len(one) < 5:
            bad.append("%s: the header has %s, the manual %s" % (what, one, other))
    told, again = owed_of_header(header), owed_of_manual(manual)
    if told != again:
        bad.append("what the host owes is not told in the same words:\n  header %s\n  manual %s" % (told, again))
    if len(ours) < 13 or len(told) < 6:
        bad.append("only %d functions and %d duties were found" % (len(ours), len(told)))
    for line in bad:
        print("tests/manual.py: " + line, file=sys.stderr)
    if not bad:
        print("manual: %d functions and %d duties, as in the header" % (len(ours), len(told)))
    return 1 if bad else 0


if __name__ == "__main__":
    sys.exit(main())
