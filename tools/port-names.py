#!/usr/bin/env python3
"""Respells the repository's own names as today's Rattle has them. Run once at the top, after the toolchain's port.py.

Definitions, fields of records of the specs and variables go from camelCase to snake_case, each part of a lemma's dashed name too; a fact with a small letter gets a capital.
A lemma that would then have its definition's name gets _lem. In the pages the names that port.py turned are turned as well, inside code spans alone.
Functions of src/, exported names, strings, inputs and outputs hold no such name and stay.
"""

import glob
import re

TOKEN = re.compile(r"[^\s(){}.;,@\"«»`\[\]:|/]+")
CAMEL = re.compile(r"(?<=[a-z0-9])[A-Z]")

# a fact, spelled as a type
FACTS = {"isOld": "IsOld"}

# lemmas whose names port.py or this script would make the same as a definition's
LEMMAS = {"all_made", "ended_by", "is_cut", "row_count", "same_address", "same_key"}

# operators of the rules, as the pages had them
MIXFIX = {"_blaming_", "_for_over_", "_for_under_", "_for_unlike_", "_when_"}

# what port.py turned for a library's sake, as the pages have it: a dash or a capital became an underscore
TURNED = """add-done add-low add-open add-row add-spec add-start add-total address-is addressOf after-none all-append all-both all-drop all-fit all-made
all-replicate all-seen all-set all-take all-told all-whole allOf answerOf anyOf at-most back-at back-by back-more begun-first below-all below-at
below-both below-fails below-two block-spec bodyOf both-halves both-is both-left by-blocks by-kind cPart call-by callOf callsOf contextOf count-spec
countOf counts-all counts-of cover-one covered-one cut-spec cutAt done-all done-at each-append each-line effect-is effectOf end-is endOf endWord
ended-by ended-is entries-next entry-known entryAt enum-told every-get every-map every-more every-of every-set falls-down fieldsAt fieldsOf fill-spec
filled-at filled-of filled-zero finish-spec first-any first-back first-ends first-found first-goes first-more first-of first-passes firstAt foundAt
from-last goes-on going-on grows-none hasRow head-spec headOf header-at header-is held-cons held-none holds-not in-order in-three in-two inArea
is-carried is-cut is-found is-known is-row isAt isBare isHeld isLast isNone isOf isOver isWhole isZero item-by itemOf itemsOf joined-back kept-from
kept-more kept-of key-fits kindOf known-is last-more left-over lengths-differ lentOf line-other lineAt lineFor lineOf linesOf long-after lowOf made-in
madeOf map-at mostOf mul-low nameOf no-more none-apart none-first none-found none-is none-left none-more none-open none-yet not-first not-last
number-at number-fits number-in number-is number-more numberAt numberIn numberOf of-part one-form one-kept one-left one-spec open-at open-done open-is
open-next open-of open-own open-spec openLines opensAt orElse own-key own-open own-row ownOf pair-spec pairOf partOf pass-spec passedAt pick-more
pieceOf pieceSize pieces-step place-is place-short placeIn placeOf planOf position-in put-first put-spec put-typed read-back read-number read-same
read-short read-spec received-is record-is refusal-is refused-says release-spec resultOf roomFor round-trip row-count row-is rowLine rowLines rowOf
rows-all rows-are rows-next run-is run-spec runOf same-address same-at same-good same-key same-length same-out same-row same-self same-step saveAt
second-is seen-other sent-is settled-is sightOf soFar some-out start-spec stateOf step-same step-spec stepOf stops-first store-at store-kept sub-part
sums-same sweep-sound take-done taken-is takenOf takes-none testOf then-by told-is turn-spec turnOf turned-none two-at two-back upTo used-sound viewOf
walked-none whole-is whole-parts wholeOf wordAt wordOf write-spec wrote-none wrote-then""".split()


def snake(part):
    return CAMEL.sub(lambda m: "_" + m.group(0).lower(), part) if re.match("[a-z]", part) else part


def respelled(word):
    return FACTS.get(word) or "-".join(snake(p) for p in word.split("-"))


def by_word(text, turn):
    return TOKEN.sub(lambda m: turn(m.group(0), text[m.start() - 1 : m.start()]), text)


def in_code(word, before):
    if word in LEMMAS and before != ".":
        return word + "_lem"
    return respelled(word) if re.match("[a-z]", word) else word


def in_source(word, before):
    return respelled(word) if re.match("[a-z]", word) else word


def in_page(word, before):
    if "-" in word and word.replace("-", "_") in LEMMAS:
        return word.replace("-", "_") + "_lem"
    if word in MIXFIX:
        return word.replace("_", "◌")
    if word in TURNED:
        return "_".join(snake(p) for p in word.split("-"))
    return respelled(word) if re.match("[a-z]", word) else word


def turn_file(path, turn, spans):
    with open(path, encoding="utf-8") as f:
        old = f.read()
    new = re.sub(r"`[^`\n]+`", lambda m: by_word(m.group(0), turn), old) if spans else by_word(old, turn)
    if new != old:
        with open(path, "w", encoding="utf-8") as f:
            f.write(new)
        return 1
    return 0


def main():
    n = 0
    for path in sorted(glob.glob("crates/**/*.antt", recursive=True)):
        n += turn_file(path, in_code, False)
    for ending in ("rt", "edit"):
        for path in sorted(glob.glob("crates/**/*." + ending, recursive=True)):
            n += turn_file(path, in_source, False)
    for path in ["README.md", *sorted(glob.glob("docs/**/*.md", recursive=True))]:
        if "docs/PORT" not in path:
            n += turn_file(path, in_page, True)
    print(f"{n} files respelled")


if __name__ == "__main__":
    main()
