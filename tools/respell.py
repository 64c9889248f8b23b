#!/usr/bin/env python3
"""Brings the repository's own names in specs/ and proofs/ to one spelling: words in snake case, a prime an apostrophe.

usage: python3 tools/respell.py [--dry]      at the top of a tree that port.py has turned, once

Names of definitions and lemmas, constructors and fields turn wherever they stand as a whole word: in .antt files, in the clauses and comments of .rt
files, in must-fail edits, and in the code spans of .md files. Functions, exported names and strings keep theirs, and so does what a library calls so in
a file that imports it. --dry lists the table and writes nothing. What would fall together in one file is said on standard error.
"""

import os
import re
import sys

WORD = r"[^\s(){}.;,@\"«»`]+"
DECLARED = re.compile(rf"^(?:  )?(?:(?:abbrev|unfoldable|pub|private)\s+)*({WORD})(?:\s+\{{[^}}]*\}})?\s+:(?:\s|$)", re.M)
INNER = re.compile(rf"^\s+(?:pub\s+)?({WORD})\s+:\s", re.M)
SPAN = re.compile(r"`[^`\n]*`")
STRING = re.compile(r'"(?:[^"\\\n]|\\.)*"')
KEEP = {"type-inv"}
# definitions that port.py turned
DEFINED_ALREADY = {"at_home", "lanes_at"}
# names that port.py turned in code, since its library spells them so: here they turn in pages and edits
TURNED_ALREADY = """
    add-at add-begin add-low add-r add-right add-start after-is after-last after-same
    all-append all-back all-both all-drop all-fit all-found all-hold all-map all-small
    all-snoc all-split all-take all-then allFit allowed-all allowed-same answerOf area-of
    area-small array-at as-before as-written at-most at-pair atHome atStart back-count
    back-from back-inside back-more back-none before-at before-same below-step beside-long blockAt
    but-last by-bit by-last by-order by-place by-row by-tests byte-le bytesOf
    callOf clear-spec close-spec cond-has copied-all copy-spec counting-more digits-value each-same
    entry-at entry-spec even-place fetch-spec field-at field-cut fields-back fields-give fieldsOf
    fill-spec filled-at filled-more filled-none finish-spec first-back first-home first-range first-step
    first-store firstAt firstOf fit-sides flagsOf formOf found-at from-itself front-length
    front-long gives-back goes-on half-spec half-up held-none held-same holds-more home-at
    in-all in-place inside-is is-negative isLast isTaken joined-at joined-length joined-snoc
    kind-at laid-out lane-of lane-room lanesAt last-arm last-line last-row lastOf
    layoutOf least-stays left-at left-behind left-down length-before lengthOf lies-in lineAt
    lineOf lines-more lines-none linesOf list-back list-count list-pushed listOf load-spec
    made-of made-up main-spec map-at map-same map-snoc mark-spec meant-is minus-minus
    minus-plus more-rows moved-before moved-length mul-at mul-low mul-next mul-right negatedIf
    next-both next-last next-row nextAt no-steps none-stays not-negative not-through numberAt
    numbers-fit odd-place of-map of-spec ofBoth ofList one-only one-side orElse
    own-at own-first own-lane own-same pair-put part-at part-length partOf parts-all
    parts-held parts-whole passed-none pasted-above pasted-below pasted-length place-found place-in place-inside
    placeIn placeOf placed-at placesAt planOf product-law push-spec put-back put-both
    put-front put-low range-at range-inside range-length range-same read-answer read-back read-is
    read-more read-none read-ok read-same readOf record-is res-same rest-all rest-more
    rest-of roomLeft root-is row-at row-before row-ends row-inside row-kept row-of
    row-put row-room rows-are rows-more rowsOf run-fits run-is run-spec running-more
    running-none same-after same-answer same-length same-place same-spec same-test second-at second-back
    secondOf set-other set-past set-same settled-is shift-fits shiftOf shifted-half sideOf
    size-is size-small sizeOf sliceOf small-all some-size spread-none startOf step-after
    step-back step-count step-is step-ok step-room step-same step-spec steps-all steps-back
    stepsOf store-spec sub-narrow sub-out sum-inside sum-is sum-more sum-wraps table-at
    table-none table-same tagOf taken-more taken-next taken-none the-call too-few too-large
    too-many turn-inside turns-alone two-bytes under-at upper-long value-none with-first within-all
    within-more word-back wordAt write-bytes write-done write-kept write-spec written-behind written-from
    written-read writtenOf
""".split()


def files(top, *endings):
    for folder, dirs, names in os.walk(top):
        dirs[:] = sorted(d for d in dirs if d not in ("out", "target", ".git"))
        for name in sorted(names):
            if name.endswith(endings):
                yield os.path.join(folder, name)


def read(path):
    with open(path, encoding="utf-8") as it:
        return it.read()


def is_own(path):
    """A file whose declarations are the author's: specs/, or a file of lemmas right in proofs/."""
    return os.path.basename(os.path.dirname(path)) in ("specs", "proofs")


def is_camel(name):
    return re.search("[a-z][A-Z]", name) is not None


def is_old(name):
    """A name that no function has: in camel case or with a dash."""
    return re.search("[A-Z-]", name) is not None


def turned(name):
    t = name.replace("getD", "get_or").replace("′", "'")
    if not re.match("[a-z]", t):
        return t
    t = re.sub(r"(?<=[a-z0-9])([A-Z])(?=[a-z])", lambda m: "_" + m.group(1).lower(), t)
    return re.sub(r"(?<=[a-z0-9_])-(?=[a-z0-9])", "_", t)


def declared():
    names = set()
    for path in filter(is_own, files("crates", ".antt")):
        text = re.sub(r"--[^\n]*", "", read(path))
        names |= set(DECLARED.findall(text)) | set(INNER.findall(text))
    return names - KEEP


def table(names):
    """Old and new; a lemma that would have its definition's name gets _lem."""
    is_definition = lambda n: n in DEFINED_ALREADY or is_camel(n) and not re.search("[a-z0-9]-[a-z]", n)
    definitions = {turned(n) for n in names if is_definition(n)}
    rows = {}
    for n in sorted(names):
        t = turned(n)
        if t in definitions and not is_camel(n) and n not in DEFINED_ALREADY:
            t += "_lem"
        if t != n:
            rows[n] = t
    return rows


def matching(names):
    """Any of the names as a whole word."""
    if not names:
        return re.compile("(?!)")
    longest_first = sorted(names, key=len, reverse=True)
    return re.compile(rf"(?<![^\s(){{}}.;,@\"«»`])({'|'.join(map(re.escape, longest_first))})(?![^\s(){{}}.;,@\"«»`])")


def by(rows):
    """A turn of a text by these rows."""
    words = matching(rows)
    return lambda text: words.sub(lambda m: rows[m.group(1)], text)


def outside_strings(text, turn):
    out, at = [], 0
    for m in STRING.finditer(text):
        out += [turn(text[at : m.start()]), m.group(0)]
        at = m.end()
    return "".join(out) + turn(text[at:])


class Respelling:
    """The turns of each kind of file."""

    def __init__(self, rows):
        self.rows = rows
        self.words = matching(rows)
        # a name in snake case may be a function's too: behind a dot it is one, and .rt files cite no lemma
        self.functions = set()
        for path in files("crates", ".rt"):
            self.functions |= set(re.findall(r"\bfn (\w+)", read(path)))
        old = {n: t for n, t in rows.items() if is_old(n)}
        self.in_rt = by(old)
        # of a comment only what can be no English word
        self.in_comment = by({n: t for n, t in rows.items() if is_camel(n)})
        ported = {n: turned(n) for n in TURNED_ALREADY}
        self.in_page = by({n: rows.get(t, t) if "-" in n else t for n, t in (ported | old).items()})

    def in_antt(self, text, kept):
        def one(m):
            name = m.group(1)
            is_path = text[m.start() - 1 : m.start()] == "."
            return name if name in kept or name in self.functions and is_path else self.rows[name]

        return self.words.sub(one, text)

    def line(self, line, comment, turn):
        """A line of code and the comment behind it, whose code spans turn as code does."""
        if comment is None:
            return outside_strings(line, turn)
        code, tail = line[:comment], line[comment:]
        return outside_strings(code, turn) + self.in_comment(re.sub("`[^`]*`", lambda s: turn(s.group(0)), tail))

    def antt(self, text):
        kept = set()
        for module, names in re.findall(r"^use ([\w.]+)\.\{([^}]*)\}", text, re.M):
            if not re.match(r"Rattle\.(?!std\b|core\b)", module):
                kept |= {w.strip() for w in names.split(",")}

        def one(line):
            m = re.search(r"(?<!\S)--(?!\S*-\w)", line)
            return self.line(line, m and m.start(), lambda t: self.in_antt(t, kept))

        return "\n".join(map(one, text.split("\n")))

    def rt(self, text):
        def one(line):
            at = line.find("//")
            return self.line(line, None if at < 0 or '"' in line[:at] else at, self.in_rt)

        return "\n".join(map(one, text.split("\n")))

    def md(self, text):
        return SPAN.sub(lambda s: self.in_page(s.group(0)), text)

    def edit(self, text):
        return self.in_page(text) if re.search("^file: (specs|proofs)", text, re.M) else self.rt(text)


def words_of(text, comment):
    return set(re.findall(WORD, re.sub(comment, "", text)))


def fallen_together(path, text, rows):
    """What two names of one file would become."""
    words = words_of(text, r"(?m)(?<!\S)--.*")
    old = words & set(rows)
    for n in sorted(old):
        if rows[n] in words - set(rows) or any(rows[n] == rows[m] for m in old - {n}):
            yield f"{path}: {n} would fall together with another name that is {rows[n]}"


def hidden(path, text, rows):
    """Parameters and locals that have the new name of a word."""
    code = re.sub("//.*", "", text)
    for n in sorted(words_of(code, "(?!)") & set(rows)):
        t = re.escape(rows[n])
        if re.search(rf"\b{t}\s*:(?!:)|\blet (?:mut )?{t}\b", code):
            yield f"{path}: {n}: a parameter or a local has the name {rows[n]}"


def main(argv):
    rows = table(declared())
    it = Respelling(rows)
    turns = {".antt": it.antt, ".rt": it.rt, ".md": it.md, ".edit": it.edit}
    looks = {".antt": fallen_together, ".rt": hidden}
    for path in list(files(".", *turns)):
        ending = os.path.splitext(path)[1]
        text = read(path)
        for said in looks.get(ending, lambda *_: ())(path, text, rows):
            print(said, file=sys.stderr)
        new = turns[ending](text)
        if new != text and "--dry" not in argv:
            with open(path, "w", encoding="utf-8") as out:
                out.write(new)
    if "--dry" in argv:
        print("\n".join(f"{n}\t{t}" for n, t in rows.items()))


if __name__ == "__main__":
    main(sys.argv[1:])
