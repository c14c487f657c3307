#!/usr/bin/env python3
"""Spells this repository's own definitions and lemmas as Rattle's library spells its own.

Words (definitions, lemmas, constructors of specs/) are in snake case; types, facts and modules keep their camel case. Run
once, at the top of the repository, after the toolchain's own port script; it changes names in .antt files and, in .rt
files, the names in clauses and ghost items. Functions, fields and strings of src/ keep their names.
"""
import pathlib
import re
import sys

# Definitions, constructors and variables that were written in camel case.
CAMEL = """
firstPlace orFault firstFault schemaOf runLength numberBelow hasName readByAny readAfter listWords isName fromWord
outputAfter wordsAfter standsIn nameFrom combineFault afterList typeNumber inRun viewAfter roomFault numbersOf indexFault
answerTo saysText saysNothing saysLower saysField saysHelp saysFind saysCombine saysSchema keywordSays schemaFault
columnsOf samePlace onlyWord nameSplit findField beginsWith afterWord afterFault signedBits lastNumber fieldFault
withoutReturn withBeneath roomOf nullOf moreDigit combineOn afterLeft wordsSay withText withField typeNumberOf
schemaCount namedOr keywordOf fieldTyped afterRest typeNamed steppedBy nameGiven lowerOf findOf fieldEnd combineOf
afterNull nameBytes
""".split()

# Lemmas whose words were joined by dashes. A dash stays where it joins two names (length-tails).
DASHED = """
none-from-ok some-from-err ok-is fault-here fault-next place-next earliest-more earliest-from earliest-start fault-of
found-more first-law take-most first-none next-none unless-none reads-one granted-is reads-alike room-enough room-short
output-read written-more test-from-ok test-from-err read-stops text-return field-placed lower-none refused-keyword
refused-missing refused-extra refused-number refused-into refused-type refused-name refused-text gather-more list-to-end
past-blank at-word words-from word-ends past-blanks then-err columns-are columns-refused counts-refused exact-output
push-more answers-as answers-refused
""".split()

# A lemma that would have its definition's name.
NAMED = {"first-word": "first_word_lem"}


def snake(name):
    return re.sub(r"(?<=[a-z0-9])([A-Z])", lambda m: "_" + m.group(1).lower(), name).replace("-", "_")


def table():
    names = {name: snake(name) for name in CAMEL + DASHED}
    names.update(NAMED)
    if len(set(names.values())) != len(names):
        sys.exit("respell: two names fall together")
    return names


def main():
    names = table()
    token = re.compile(r"[A-Za-z_][A-Za-z0-9_'-]*")
    files = [p for p in sorted(pathlib.Path("crates").rglob("*")) if p.suffix in (".antt", ".rt") and "out" not in p.parts]
    texts = {p: p.read_text() for p in files}
    seen = {word for text in texts.values() for word in token.findall(text)}
    together = sorted(new for old, new in names.items() if old in seen and new in seen)
    if together:
        print("already there, look at each:", " ".join(together))
    for path, text in texts.items():
        new = token.sub(lambda m: names.get(m.group(0), m.group(0)), text)
        if new != text:
            path.write_text(new)


main()
