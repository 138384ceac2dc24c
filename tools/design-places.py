#!/usr/bin/env python3
"""Counts the places in crates/*/src that are written in an older style than today's Rattle asks for. Run at the top of a checkout; takes no argument.

Prints a line for each place, `point<TAB>file:function<TAB>what`; where a comment "As it was: .." stands by it, its reason is behind the what. The points:

1  own enums of the shape of Option or Result, a flag or a sentinel beside a value, numbers for refusals and for kinds
2  twins: functions and types that differ only in a type, a size or a constant
3  loops that count or move an index by hand
4  equality, copying, conversion and printing by hand
5  a clause, or three parameters and more, repeated in three functions or more
6  buffers with a length or a position beside, parallel arrays
7  switches on which step to run

Points 3 and 5, and most of the others, are found by patterns alone. What no pattern finds is listed below with the old text by which its place is known: a place whose old text is gone is not printed.
"""

import collections
import glob
import itertools
import re

HEAD = re.compile(r'^( *)(?:pub(?:\([a-z]+\))? )?(?:const )?(?:extern "C" )?(fn|struct|enum) (\w+)')
Item = collections.namedtuple("Item", "file crate kind name text head params clauses body kept")


def items():
    """Functions, structs and enums, each with the comments before it."""
    for file in sorted(glob.glob("crates/*/src/**/*.rt", recursive=True)):
        lines = open(file, encoding="utf-8").read().split("\n")
        for start, line in enumerate(lines):
            found = HEAD.match(line)
            if not found:
                continue
            indent, kind, name = found.groups()
            end, opened = start, line.endswith("{")
            while not line.rstrip().endswith((";", "}")) and lines[end] != indent + "}" and not (lines[end].endswith(";") and not opened):
                end += 1
                opened = opened or lines[end].endswith("{")
            top = start
            while top > 0 and re.match(r" *(//|#\[)", lines[top - 1]):
                top -= 1
            text = "\n".join(lines[start : end + 1])
            head, _, body = text.partition("{\n")
            signature = re.split(r"\n +(?:requires|ensures|ghost)\b", head)[0].strip()
            params = re.findall(r"(\w+): ([^,()]*(?:\[[^\]]*\])?[^,()]*)", re.sub(r"^([^(]*)<[^(]*>\(", r"\1(", signature)) if kind == "fn" else []
            clauses = re.findall(r"\b(?:requires|ensures)\b[* ]*(?:\w+ )?\{ (.*) \}$", head, re.M)
            kept = re.search(r"As it was: (.*)", "\n".join(lines[top : end + 1]))
            code = re.sub(r"//.*", "", text if kind != "fn" else body)
            yield Item(file, file.split("/")[1], kind, name, text, signature, [(n, t.strip()) for n, t in params], clauses, code, kept and kept.group(1))


ALL = list(items())
FNS = [i for i in ALL if i.kind == "fn"]
PLACES = collections.OrderedDict()


def place(point, item, what):
    PLACES.setdefault((point, item.file + ":" + item.name, what), item)


def flat(item):
    return re.sub(r"\s+", " ", item.text)


# OPTION, RESULT, NUMBERS

# Structs with a flag, a sentinel or a number in the place of an Option or a Result: crate, struct, what is there of it, what it is
BESIDE = [
    ("rules", "Place", r"mark: u8", "mark 0: nothing in it"),
    ("rules", "Entry", r"kind: u8", "kind 0: nothing in it"),
    ("rules", "Record", r"reference|kind: u8", "kind as a number; reference 255: not segmented"),
    ("rules", "Fault", r"number: u8", "number 0: none; position 65535: none"),
    ("rules", "Heading", r"kind: u8", "kind as a number; reference 255: not segmented"),
    ("rules", "Received", r"refusal: u8", "refusal 0: none; position 65535: none"),
    ("rules", "Swept", r"refusal: u8", "refusal 0: none"),
    ("rules", "Opened", r"refusal: u8", "refusal 0: none"),
    ("rules", "Sent", r"refusal: u8", "refusal 0: none"),
    ("param_fields", "Sequence", r"new: bool", "reference 255: not segmented"),
    ("table", "Search", r"found: bool", "two flags beside a place"),
    ("table", "Sought", r"at: usize", "16: none"),
    ("sound_rows", "Rows", r"sound: bool", "used counts where sound is set"),
    ("receive_perform", "Verdict", r"saves: bool|refusal: u8|records: u8", "three flags, and what counts where they are set"),
    ("receive_carry", "Judged", r"found: bool", "held and at count where found is set"),
    ("receive_count", "Count", r"refusal: u8", "row counts where refusal is 0"),
    ("loop_laps", "Looped", r"number: u8", "number 0: none"),
    ("host_numbers", "CDecision", r"kind: u8", "kinds as numbers; place 16: none"),
    ("host_numbers", "CPart", r"source: u8", "source as a number"),
    ("host", "CReceived", r"refusal: u8", "refusal 0: none; position 65535: none"),
    ("trace_items", "Happening", r"kind: u8", "kind and refusal as numbers; the decision of a refusal where nothing was decided"),
    ("streams", "Got", r"failed: bool", "count counts where failed is not set"),
    ("trace_session", "Session", r"going: bool", "the rest counts where going is set"),
]

# Functions that answer by a bool whether they did their work, and by a sentinel
ANSWERS = [
    ("summary", "lose_in", r"-> bool", "bool: whether it did its work"),
    ("summary", "bill_loss", r"-> bool", "bool: whether it did its work"),
    ("receive_clock", "bill_due", r"-> bool", "bool: whether it did its work"),
    ("receive_clock", "billed", r"-> bool", "bool: whether it did its work"),
    ("streams", "say", r"-> bool", "bool: whether it did its work"),
    ("streams", "write", r"-> bool", "bool: whether it did its work"),
    ("streams", "write_past", r"-> usize", "0: failed"),
    ("looped", "print", r"-> bool", "bool: whether it did its work"),
    ("trace_session", "print", r"-> bool", "bool: whether it did its work"),
    ("registry", "kind_of", r"-> u8", "0: none"),
    ("table", "sooner", r"-> usize", "16: none"),
    ("sound_rows", "hint_of", r"-> u8", "0: none"),
    ("sound_rows", "is_new_if", r"hint: u8", "0: none"),
    ("sound_rows", "is_listed", r"hint: u8", "0: none"),
    ("receive_segment", "position_of", r"NOWHERE", "65535: none"),
    ("trace_lines", "put_unless", r"none: u64", "a number for none"),
    ("vectors", "position", r"== rules::NOWHERE", "65535: none"),
]


def variants(item):
    inner = item.text.split("{", 1)[1].rsplit("}", 1)[0]
    inner = re.sub(r"//.*", "", inner)
    return re.findall(r"(\w+)\s*(\([^)]*\)|\{[^}]*\})?\s*(?:,|$)", inner.strip())


def point1():
    shaped = {}
    for e in ALL:
        if e.kind != "enum":
            continue
        v = variants(e)
        if len(v) == 2 and any(p in ("", "(Fault)", "(u8)") for _, p in v) and any(p not in ("", "(Fault)", "(u8)") for _, p in v):
            shaped[e.name] = e
            place(1, e, "own enum of the shape of " + ("Option" if any(p == "" for _, p in v) else "Result"))
    for f in FNS:
        for name in shaped:
            if re.search(r"-> " + name + r"\b", f.head):
                place(1, f, "answers " + name)
            elif re.search(r"\b" + name + r"::\w+[^;]*=>", f.body):
                place(1, f, "takes " + name + " apart")
        if re.search(r"-> u8$", f.head) and any("first (" in c for c in f.clauses):
            place(1, f, "answers a refusal's number")
        elif re.search(r"\brefused\((?:\w+, )?\d|\bfault\(\d|\brefusal: \d\d?\b(?<!: 0)|NoCut\(\d|number: 4\b", f.body) or ("fn refused" in f.head or "fn fault" in f.head) and re.search(r": u8", f.head):
            place(1, f, "refuses by a number")
        if re.search(r"\b(?:refusal|(?<!q\.)number) (?:[!=]= (?:0|22)\b)", f.body):
            place(1, f, "asks a refusal's number")
        if re.search(r"\bkind (?:[!=]=) |match kind\b|\bmatch \w+ \{\s*1 \| 2 =>|\bnumbers\(\d", f.body) or re.search(r"-> u8", f.head) and re.search(r"=> 3\d,", f.body):
            place(1, f, "asks or answers a kind's number")
        if re.search(r"[!=]= 16\b|== rules::PLACES|=> rules::PLACES", f.body):
            place(1, f, "16: none")
    listed(1, BESIDE, ("struct",))
    listed(1, ANSWERS, ("fn",))


# TWINS

# One row for each place: crate, name, its old text, what else is like it
TWINS = [
    ("octets", "number2", r"\* 256", "number4"),
    ("octets", "number4", r"\* 256", "number2"),
    ("registry", "all_apart", r"while i < 8", "contexts_differ, keys_apart and all_differ of sound"),
    ("registry", "contexts_differ", r"while i < 8", "all_apart, keys_apart and all_differ of sound"),
    ("registry", "apart_from", r"while i < 8", "differs_from, apart_from and differs_from of sound, is_new of sound_rows"),
    ("registry", "differs_from", r"while i < 8", "apart_from, apart_from and differs_from of sound, is_new of sound_rows"),
    ("registry", "are_apart", r"fn are_apart", "are_apart of sound"),
    ("param_fields", "LastField", r"\(Fault\)", "ContextField, SequenceField, AddressField, AddressesField, Reading"),
    ("param_fields", "ContextField", r"\(Fault\)", "LastField, SequenceField, AddressField, AddressesField, Reading"),
    ("param_fields", "SequenceField", r"\(Fault\)", "LastField, ContextField, AddressField, AddressesField, Reading"),
    ("param_fields", "AddressField", r"\(Fault\)", "LastField, ContextField, SequenceField, AddressesField, Reading"),
    ("param_read", "AddressesField", r"\(Fault\)", "LastField, ContextField, SequenceField, AddressField, Reading"),
    ("param_read", "Reading", r"\(Fault\)", "LastField, ContextField, SequenceField, AddressField, AddressesField"),
    ("param_fields", "wide", r"as u16", "size"),
    ("param_fields", "size", r"as usize", "wide"),
    ("param_write", "put_address", r"put_at\(area, at \+ 1", "put_address of receive_report"),
    ("receive_report", "put_address", r"put_at\(report, at \+ 1", "put_address of param_write"),
    ("sound_free", "lower_weight", r"while i < 8", "upper_weight"),
    ("sound_free", "upper_weight", r"while i < 16", "lower_weight"),
    ("sound_free", "none_open", r"while i < 16", "any_due of receive_sweep"),
    ("receive_sweep", "any_due", r"while i < ", "none_open of sound_free"),
    ("sound_open", "look_over", r"while i < 16", "names_of of sound"),
    ("sound", "names_of", r"while i < 16", "look_over of sound_open"),
    ("sound", "are_apart", r"fn are_apart", "are_apart of registry"),
    ("sound", "apart_from", r"while i < 16", "differs_from, apart_from and differs_from of registry, is_new of sound_rows"),
    ("sound", "keys_apart", r"while i < 16", "all_differ, all_apart and contexts_differ of registry"),
    ("sound", "differs_from", r"while i < n", "apart_from, apart_from and differs_from of registry, is_new of sound_rows"),
    ("sound", "all_differ", r"while i < n", "keys_apart, all_apart and contexts_differ of registry"),
    ("sound_rows", "is_new", r"while i < n", "differs_from of sound and of registry"),
    ("table", "free_place", r"key: Key \{", "no_entry of opening: all zero"),
    ("opening", "no_entry", r"Entry \{", "free_place of table: all zero"),
    ("opening", "refused", r"number: u8", "refused of receive_clock, receive_arrival, receive_segment, loopback"),
    ("receive_clock", "refused", r"refusal: u8", "refused of opening, receive_arrival, receive_segment, loopback"),
    ("receive_arrival", "refused", r"refusal: u8", "refused of opening, receive_clock, receive_segment, loopback"),
    ("receive_segment", "refused", r"number: u8", "refused of opening, receive_clock, receive_arrival, loopback"),
    ("loopback", "refused", r"number: u8", "refused of opening, receive_clock, receive_arrival, receive_segment"),
    ("receive_clock", "judge", r"return 3", "judge of receive_arrival and receive_segment, unfit of loopback"),
    ("receive_arrival", "judge", r"return 3", "judge of receive_clock and receive_segment, unfit of loopback"),
    ("receive_segment", "judge", r"refused\(3", "judge of receive_clock and receive_arrival, unfit of loopback"),
    ("loopback", "unfit", r"return 3", "judge of receive_clock, receive_arrival and receive_segment"),
    ("receive_clock", "clock", r"let due = receive_sweep::any_due", "release"),
    ("receive_clock", "release", r"let due = receive_sweep::any_due", "clock"),
    ("receive_delivery", "part_of", r"let end = start \+ n", "part of octets, but for the end"),
    ("param_read", "tail", r"&s\[at\.\.\]", "part of octets, but for the end"),
    ("receive_sweep", "lost", r"Record \{", "put_place of trace_records"),
    ("trace_records", "put_place", r"Record \{", "lost of receive_sweep"),
    ("loopback", "has_vacant", r"Found::At\(_\) => true", "has_row"),
    ("loopback", "has_row", r"Found::At\(_\) => true", "has_vacant"),
    ("trace_items", "pair", r"octets::number2", "word"),
    ("trace_items", "word", r"octets::number4", "pair"),
    ("trace_events", "open", r"Received \{", "swept"),
    ("trace_events", "swept", r"Received \{", "open"),
    ("streams", "read_once", r"is_interrupted", "write_once"),
    ("streams", "write_once", r"is_interrupted", "read_once"),
    ("vectors", "fresh", r"opening::opening", "fresh of looped"),
    ("looped", "fresh", r"opening::opening", "fresh of vectors"),
    ("vectors", "octet", r"print_hex", "put_pair of trace_records"),
    ("replay", "misused", r"streams::misused", "misused of records and totals"),
    ("records", "misused", r"streams::misused", "misused of replay and totals"),
    ("totals", "misused", r"streams::misused", "misused of replay and records"),
    ("replay", "main", r"if misused", "main of records and totals"),
    ("records", "main", r"if misused", "main of replay and totals"),
    ("totals", "main", r"if misused", "main of replay and records"),
] + [
    ("host_c", name, r"host::" + name, "the same call in host, but for its export")
    for name in ("egrynnol_4_opening", "egrynnol_4_arrival", "egrynnol_4_clock", "egrynnol_4_release", "egrynnol_4_delivery", "egrynnol_4_sending")
] + [
    ("demanded", "c_" + name, r"host::egrynnol_4_" + name, name) for name in ("opening", "clock", "release", "sending")
]


def listed(point, table, kinds):
    for crate, name, pattern, what in table:
        for i in ALL:
            if i.crate == crate and i.name == name and i.kind in kinds and re.search(pattern, i.text):
                place(point, i, what)


# LOOPS


def point3():
    for f in FNS:
        for condition in re.findall(r"\bwhile ([^{]*) \{", f.body):
            steps = re.findall(r"\b(\w+) ([-+*/]=) (\w+)", f.body)
            by_one = [n for n, _, k in steps if k == "1" and re.search(r"\b" + n + r"\b", condition)]
            moved = [n for n, _, k in steps if re.search(r"\b" + n + r"\b", condition)]
            if moved:
                place(3, f, "while " + condition + ": " + ("counts " + by_one[0] if by_one else "moves " + moved[0]))


# BY HAND

HAND = [
    ("octets", "put", r"dst\[i\] = src\[i\]", "copying octet by octet"),
    ("octets", "shorter", r"if a <= b", "min by hand"),
    ("octets", "octets2", r"/ 256", "to_be_bytes by hand"),
    ("octets", "number2", r"\* 256", "from_be_bytes by hand"),
    ("octets", "number4", r"\* 256", "from_be_bytes by hand"),
    ("sound_free", "word", r"16777216", "from_le_bytes by hand"),
    ("sound_open", "zero_behind", r"4294967296 \*", "from_le_bytes by hand"),
    ("sound_rows", "low", r"% 65536", "the low half by hand"),
    ("sound_rows", "octet_of", r"% 256", "the low octet by hand"),
    ("table", "same_octets", r"a\[i\] != b\[i\]", "equality by hand"),
    ("table", "same_address", r"a\.length == b\.length", "equality by hand"),
    ("table", "same_key", r"a\.association == b\.association", "equality by hand"),
    ("table", "same_addresses", r"same_octets", "equality by hand"),
    ("table", "seek_in", r"key\.association == k\.association", "equality by hand"),
    ("table", "free_place", r"octets: \[0; 20\]", "all zero by hand: a Default"),
    ("opening", "no_entry", r"kind: 0", "all zero by hand: a Default"),
    ("param_read", "heading", r"let remaining = q\.remaining", "copying field by field"),
    ("param_read", "rest", r"let origin = a\.origin", "copying field by field"),
    ("receive_segment", "received", r"let decision = v\.decision", "copying field by field"),
    ("receive_arrival", "beside", r"let decision = r\.decision", "copying field by field: all but one stay"),
    ("loop_laps", "for_segment", r"let context = q\.context", "copying field by field: all but one stay"),
    ("trace_events", "kept", r"let table = held\.table", "copying field by field: all but two stay"),
    ("trace_turns", "happens", r"let registry = held\.registry", "copying field by field: all but two stay"),
    ("receive_sweep", "lost", r"let key = p\.key", "copying field by field: a From"),
    ("trace_records", "put_place", r"let key = p\.key", "copying field by field: a From"),
    ("receive_segment", "refused", r"Fault \{ number, position \}", "copying field by field"),
    ("host", "egrynnol_4_arrival", r"let table = r\.table", "copying field by field: a From"),
    ("host_numbers", "place_number", r"Found::At\(p\) => p", "conversion by hand"),
    ("host_numbers", "found_of", r"Found::Nothing", "conversion by hand"),
    ("host_numbers", "c_decision_of", r"numbers\(", "conversion by hand: a From"),
    ("host_numbers", "decision_of", r"o\.kind == 1", "conversion by hand: a From"),
    ("trace_items", "kind_of", r"=> 32", "conversion by hand: a From"),
    ("trace_records", "hex_digit", r"48 \+ x", "hex by hand"),
    ("trace_records", "put_pair", r"hex_digit", "hex by hand"),
    ("trace_records", "put_hex", r"put_pair", "hex by hand"),
    ("trace_lines", "put_last", r"48 \+", "decimal by hand"),
    ("trace_lines", "put_digits", r"48 \+", "decimal by hand"),
    ("trace_lines", "put_number", r"48 \+", "decimal by hand"),
    ("looped", "refused", r"io::decimal", "decimal by hand"),
]


def point4():
    for f in FNS:
        if re.search(r"\.0 [!=]= \S*\.0\b|\bcontext\.0 [!=]= context\b", f.body):
            place(4, f, "equality by hand: numbers taken out of their types")
        wide = re.findall(r"\bas (u16|u32|u64|usize)\b", f.body)
        if wide:
            place(4, f, "conversion by `as`: " + ", ".join(w if n == 1 else f"{w} {n} times" for w, n in sorted(collections.Counter(wide).items())))
        if re.search(r"\bio::(?:write_all|print_\w+)\(", f.body):
            place(4, f, "printing by hand, to a numbered stream")
    listed(4, HAND, ("fn",))


# CLAUSES AND GROUPS


def conjuncts(clause):
    """The parts of a clause between the × of its top, each without the parentheses around it."""
    depth, part, parts = 0, "", []
    for c in clause:
        depth += (c in "([{") - (c in ")]}")
        if c == "×" and depth == 0:
            parts.append(part)
            part = ""
        else:
            part += c
    parts = [p.strip() for p in parts + [part]]
    bare = [p[1:-1] if p.startswith("(") and closes(p) else p for p in parts]
    return bare if bare == [clause] else [q for p in bare for q in conjuncts(p)]


def closes(p):
    depth = 0
    for i, c in enumerate(p):
        depth += (c == "(") - (c == ")")
        if depth == 0:
            return i == len(p) - 1
    return False


def point5():
    said = collections.defaultdict(list)
    for f in FNS:
        for part in dict.fromkeys(p for c in f.clauses for p in conjuncts(c)):
            said[part].append(f)
    for part, fns in said.items():
        if len(fns) >= 3:
            for f in fns:
                place(5, f, f"clause of {len(fns)} functions: {part}")
    groups = {}
    sets = [frozenset(f.params) for f in FNS]
    for a, b in itertools.combinations(sets, 2):
        if len(a & b) >= 3:
            groups[a & b] = [f for f, s in zip(FNS, sets) if a & b <= s]
    for f, s in zip(FNS, sets):
        mine = [g for g, fns in groups.items() if f in fns and max(collections.Counter(x.crate for x in fns).values()) >= 3]
        if mine:
            g = max(mine, key=lambda g: (len(g), len(groups[g]), sorted(g)))
            place(5, f, f"parameters of {len(groups[g])} functions: " + ", ".join(n for n, _ in f.params if n in {x for x, _ in g}))


# BUFFERS

BUFFERS = [
    ("rules", "Address", r"length: u8", "octets and their number"),
    ("rules", "Sent", r"length: u16", "the number of octets of an area"),
    ("table", "seek_in", r"from: usize", "places, and which to begin at"),
    ("sound_open", "Seen", r"open: usize", "digests and their number"),
    ("sound_open", "zero_behind", r"a: u8, b: u8", "eight octets, each by itself"),
    ("sound_open", "zero_from", r"a\[0\], a\[1\]", "eight octets, each by itself"),
    ("sound_open", "head", r"a\[0\], a\[1\]", "four octets, each by itself"),
    ("sound_free", "word", r"a: u8, b: u8", "four octets, each by itself"),
    ("sound_free", "address_weight", r"b\[0\], b\[1\]", "four octets, each by itself"),
    ("octets", "number2", r"a: u8, b: u8", "two octets, each by itself"),
    ("octets", "number4", r"a: u8, b: u8", "four octets, each by itself"),
    ("sound", "Named", r"open: usize", "names and their number"),
    ("trace_events", "Replay", r"length: usize", "registry and its length"),
    ("loop_laps", "Looped", r"length: u16", "the number of octets of an area"),
    ("loop_laps", "receive", r"n: u16", "area and the number of its octets"),
    ("streams", "Got", r"count: usize", "the number of octets of an area"),
    ("trace", "Progress", r"written: usize", "the number of octets of an area"),
    ("trace_session", "Session", r"have: usize", "the number of octets of the input"),
    ("trace_session", "print", r"n: usize", "area and the number of its octets"),
    ("vectors", "records", r"n: u8", "report and the number of its records"),
    ("sound_rows", "are_told", r"let mut hints = \[0u8; 256\]", "list and hints side by side"),
]


def point6():
    for f in FNS:
        areas = [n for n, t in f.params if "[" in t and "SUMMARY" not in t]
        marks = [n for n, t in f.params if t in ("usize", "u8") and n in ("at", "n", "from", "to", "count", "length", "have", "done", "used", "i", "start", "size")]
        if areas and marks:
            place(6, f, ", ".join(areas) + " with " + ", ".join(marks) + " beside")
        if re.search(r"\bm\[(?:\d+|64 \* [^\]]*) \+ ", f.body):
            place(6, f, "columns of one array, side by side")
    listed(6, BUFFERS, ("struct", "fn"))


# SWITCHES


def point7():
    for e in ALL:
        if e.kind == "enum" and e.name in ("Test", "Watcher"):
            place(7, e, "which step to run, as an enum")
    for f in FNS:
        switch = [n for n, t in f.params if t in ("Test", "Watcher")]
        if re.search(r"match which\b", f.body):
            place(7, f, "switch on which step to run")
        elif switch:
            place(7, f, "hands on which step to run")
        elif re.search(r"\b(?:Test|Watcher)::", f.body):
            place(7, f, "chooses which step to run")
        if re.search(r"match line\b", f.body):
            place(7, f, "switch on a line" if "-> Verdict" in f.head else "asks a line")
        if ("stops", "bool") in f.params:
            place(7, f, "flag: whether a line is written too")


def main():
    point1()
    listed(2, TWINS, ("fn", "enum", "struct"))
    point3()
    point4()
    point5()
    point6()
    point7()
    for (point, where, what), item in sorted(PLACES.items(), key=lambda p: p[0][0]):
        print(f"{point}\t{where}\t{what}" + (f" (as it was: {item.kept})" if item.kept else ""))


main()
