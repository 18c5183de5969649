#!/usr/bin/env python3
"""Respells the names of this repository's definitions and lemmas as today's Rattle has them.

usage: python3 tools/respell.py      (at the top of the repository, once, right after the kit's port.py)

Facts and records of facts are in upper camel case; definitions, lemmas, fields and local names in snake case. A dash stays
where it joins the names of two definitions, as in length-written. Functions of src/, strings, inputs and outputs keep their
names: none of them is written with a dash or an inner capital. It stops, and changes nothing, where two names would fall
together in one file, but for a definition and the function of src/ that answers it. Names in the pages of docs/ and in README.md are respelled where they stand between backquotes.
"""
import os
import re
import sys

# Facts: each word gets a capital, and the dashes go.
FACTS = """
A-log-stays-within-its-row A-value-is-the-front-of-its-row Accepted-is-taken Accepting-stays-right An-identifier-names-its-setting As-at-first
Comes-back Each-place-has-its-own-identifier Equal-frames-have-equal-messages Escaped-holds-no-flag Factory-values-are-allowed Frame-laws
Frames-come-back Free-entries-are-what-is-not-held Full-exactly-without-room Giving-up-keeps-the-latest Giving-up-makes-room Ids-are-distinct
Kept-decides-the-verdict Last-write-holds Log-laws Nine-digits None-only-at-the-end Nothing-after-a-wipe Nothing-is-carried-over-a-flag Others-stay
Own-check-leaves-constant Pieces-cover-the-recording Put-in-place Reading-undoes-writing Receiver-follows-the-line Receiver-laws
Refused-changes-nothing Rule-exactly-where-broken Settings-laws Some-byte Store-laws Table-laws Tables-are-right Unescaping-undoes-escaping
Values-fit-a-row Worked-listing Writing-undoes-reading now-alike
""".split()

# Definitions, lemmas, fields and local names: an inner capital becomes an underscore and a small letter, a dash an underscore.
WORDS = """
All-ids accepted-taken after-high after-long after-low after-wipe afterAll afterAll-long afterBy alike-more answerBy answerTo appended-full
appended-room appended-writes as-at-first at-end bad-stays before-some bigEndian bit-cases bitStep bitStep-even body-undone byte-back byte-free
carried-own checkBytes closes-frame closingFlag come-back commandIn commandOf commandText contentOf count-told counted-sound counting-push
covers-all destination-fits distinct-by distinct-rest div-small domain-fits due-own e-command e-next e-raw e-start e-status e-stop eightSteps
eightSteps-high eightSteps-split either-log empty-log ends-here escapeByte escaped-front escaped-more escapedByte escapedEscape escapedFlag
fields-length filled-full filled-room first-none fits-frame fitsInto five-digits flag-after flag-free flag-opens flags-fit flags-out flagsFit
found-either found-rightful fourth-at frame-laws frame-length frame-open frame-parts free-before free-key free-or-none free-run from-here
front-some front-written full-exactly full-tests good-body good-content good-whole has-elsewhere hearOn hearingOf held-before held-id held-key
holds-none holds-some i-other i-there id-at id-fits in-free-entry in-no-entry in-own-entry index-either index-found index-has index-here index-none
is-id isDeletion isFree isFull j-other j-there judgedBy judges-at keepsRule kept-decides keptBy keptOf keptOf-none keptOf-push key-at key-of-either
key-of-own keyIn labelName labelNumber laid-again laid-front laid-push last-push last-stands last-write lastIndex latestEach latestOf latestOfFirst
lawful-rest leading-flag length-value line-some lineFeed list-wiped listingOf log-laws logPlaces long-es long-fs long-set mark-else mark-more
mark-then may-be may-be-rightful mayBeHeld means-more mod-small mod-twice more-alike more-told namesLine never-held next-call next-is nine-digits
no-id no-id-here no-line-text no-more-held no-refusal none-anywhere none-at none-at-end none-held none-is-free none-taken not-refused
not-whole nothing-more nothingHeld now-there nth-set-other nth-set-same number-back of-run one-byte-more one-escaped one-less-held one-more-at
one-more-held one-there only-first onward-at onwardFrom or-false or-none or-true orNothing others-set over-a-flag own-check own-place pair-first
pass-by passed-at passed-by passedOver past-field piece-content piece-more piece-none piece-small piece-verdict piecesFrom placeCount placed-known
placed-new plain-first put-together q-id reach-end reach-flag reach-plain read-any read-tells readIn readInto reads-decide receiver-laws record-found
recordOf recordsOf refusalNumber refused-listing refused-same refusedAt refusedLine registerOf rest-none room-known room-new row-wide
rule-exactly rule-id rule-test run-free run-free-at run-within same-messages search-index serviceFound serviceIn serviceOf services-but services-same
servicesIn set-taken settingAt settings-laws six-letters slotPlaces some-free some-held sound-freed sound-known sound-new split-run stands-either
start-stays start-within statusNumber statusOf stays-right step-table stop-run stop-value stop-within store-laws tables-right take-up taken-by
text-then text-told three-digits time-fits turn-none turn-some unlessRefused value-by value-front valueIn values-all values-wide
valuesBy verdictAt verdictBy verdictFor verdictOf were-alike while-open while-waiting without-key worked-listing write-fields write-parts written-more
written-nothing written-pair x-after xor-back xor-swap y-after zero-time
""".split()

# The same; port.py respells these in crates/, and this script in the pages.
WORDS += "frameOf lastOf lineOf pieceAt".split()

# The same, but for the dash that joins the names of two definitions.
JOINED = {
    "afterAll-append": "after_all-append",
    "bitStep-xor": "bit_step-xor",
    "eightSteps-xor": "eight_steps-xor",
    "last-set-other": "last-set_other",
    "last-set-same": "last-set_same",
}

NAME = re.compile(r"(?<![\w'-])[A-Za-z_][\w']*(?:-[\w']+)*(?![\w'-])")
STRING = re.compile(r'"(?:\\.|[^"\\])*"')
FUNCTION = re.compile(r"\bfn (\w+)")
QUOTED = re.compile(r"`[^`\n]+`")


def snake(name):
    return re.sub(r"(?<=[a-z0-9])[A-Z]", lambda m: "_" + m[0].lower(), name).replace("-", "_")


def table():
    names = {n: "".join(w[:1].upper() + w[1:] for w in n.split("-")) for n in FACTS}
    names.update({n: n[:1].lower() + snake(n[1:]) for n in WORDS})
    names.update(JOINED)
    return names


def respelled(text, names):
    return NAME.sub(lambda m: names.get(m[0], m[0]), text)


def outside_strings(text, names):
    out, at = [], 0
    for m in STRING.finditer(text):
        out += [respelled(text[at : m.start()], names), m[0]]
        at = m.end()
    return "".join(out + [respelled(text[at:], names)])


def files():
    for top in ("crates", "docs"):
        for folder, dirs, names in os.walk(top):
            dirs[:] = sorted(d for d in dirs if d != "out")
            yield from (os.path.join(folder, n) for n in sorted(names))
    yield "README.md"


def main():
    names = table()
    changed, together = {}, []
    for path in files():
        if not path.endswith((".antt", ".rt", ".md")) or path.startswith("docs/PORT"):
            continue
        with open(path, encoding="utf-8") as f:
            old = f.read()
        if path.endswith(".md"):
            new = QUOTED.sub(lambda m: respelled(m[0], names), old)
        else:
            new = outside_strings(old, names)
            here = set(NAME.findall(old)) - set(FUNCTION.findall(old))
            together += [f"{path}: {n} and {names[n]}" for n in sorted(here & set(names)) if names[n] in here]
            spelled = {}
            for n in sorted(here & set(names)):
                spelled.setdefault(names[n], []).append(n)
            together += [f"{path}: {' and '.join(ns)}" for ns in spelled.values() if len(ns) > 1]
        if new != old:
            changed[path] = new
    if together:
        print("names that fall together; nothing was changed:", *together, sep="\n")
        return 1
    for path, new in changed.items():
        with open(path, "w", encoding="utf-8") as f:
            f.write(new)
    print(f"respell: {len(changed)} files, {len(names)} names")
    return 0


if __name__ == "__main__":
    sys.exit(main())
