#!/usr/bin/env python3
"""Brings this repository's own antt names to snake case, once, behind the kit's port/port.py.

usage: tools/respell.py [FOLDER]      the repository's top; here without a word

port.py respells those of our names that a library has too, and says of the others: 'rename them alike if you want one style'. So: a name
that a file of specs/ or proofs/ declares gets plain underscores, as `sealFrom` and `seal-from` become `seal_from`; types and modules keep
their capitals. Names that Rattle makes (behind tie, c, l, goal) stay, and so do the answers' names in a Proof.antt. It turns .antt files,
the clauses and `ghost use` lines of .rt files, the pairs of must-fail edits, and code spans of comments and pages. It stops where two
names would fall together in one file. What it turned stands in docs/PORT.md.
"""

import os
import re
import sys

WORD = r"[^\s(){}.;,@\"«»`|]+"
DECLARED = re.compile(r"^(\s*)((?:(?:pub|unfoldable|abbrev|data|record|let|where|in) +)*)(%s)(?: +[({][^:]*)? :(?: |$)(.*)" % WORD)
MADE = re.compile(r"(?:^|[ (])(?:tie|goal)\.|^\{M : Type 1\} → statement")
LIBRARY = re.compile(r"^ *(?:ghost )?use (?!Rattle\.(?!std\.|core\.))\S+?\.\{([^}]*)\}", re.M)


def snake(name):
    words = re.sub(r"(?<=[a-z0-9⁻])[A-Z](?=[a-z])|(?<=[a-z])[A-Z]$", lambda m: "_" + m[0].lower(), name)
    return words.replace("-", "_")


def files(top):
    for folder, folders, names in os.walk(top):
        folders[:] = sorted(f for f in folders if f not in ("out", "target", ".git", ".ci"))
        for name in sorted(names):
            if name.endswith((".antt", ".rt", ".edit", ".md")):
                yield os.path.join(folder, name)


def of_library(text):
    """The names that a file brings in from std and other libraries of the kit."""
    return {n.split(" as ")[0].strip() for m in LIBRARY.finditer(text) for n in m[1].split(",")}


# A lemma that would have a definition's name gets _lem; port.py turned the last two already, beside our definitions placeOk and isState.
LEMMAS = ("all-zero", "call-number", "spaced-over", "bit-and", "bit-or", "bit-xor", "bits-of", "close-number", "constant-planes", "image-ok", "key-ok", "length-ok", "start-number", "used-ok", "zone-ok")
LEMMAS_TURNED = ("place_ok", "is_state")

# What port.py respelled in .antt and .rt files, for the edits and pages, which it leaves.
BY_PORT = """
    a-first add-at add-kept add-most add-r add-spec add-twice add-wide added-full added-is all-back all-in all-made all-same all-sound
    all-true all-whole asks-rest at-most at-row back-more back-on begun-first begun-more bit-byte bit-past bit-up bits-are bits-in bitsOf
    block-made blockAt blockOf both-left both-right by-all by-bits byte-low byte-of byteAt bytes-drop bytes-take bytesOf call-asks
    chain-keyless close-spec copy-spec cut-fits each-all each-same end-seen endOf endsAt entriesAt enum-told fill-spec fill-step firstOf
    flag-is flag-small four-low from-back front-bytes front-rest get-spec high-is highOf in-row is-lawful is-one is-open is-state
    item-refused itemAt kept-full kindAt kindOf lastOf lay-at left-is length-front listed-at listed-same look-in look-spec low-bit low-half
    lowOf mark-spec mul-at mul-wide no-bytes no-key none-made number-is off-of on-none one-more only-at only-one only-sum opOf open-spec
    open-stays other-arm other-way over-none part-length partOf parts-join passed-on pieceAt place-is place-ok placeOf plain-code put-on
    put-refused put-spec reaches-end read-done read-spec read-whole row-is rowAt rows-all rows-more run-spec runs-same same-at same-bits
    same-length same-low same-more same-none same-refl same-self same-size same-spec same-true same-word shown-by so-far start-spec stateOf
    store-spec stored-is stored-more stored-on sub-at sub-open sub-same sum-is sumAt tagOf tallyOf target-below term-is times-zero to-end
    to-is turn-end turn-is turn-last turn-more turn-spec twice-spec two-back v-low word-same wordAt xor-assoc xor-low xor-same zero-xor
""".split()


def table(texts):
    """old: new for what our files declare, and the names of ours that are fields."""
    turned, fields, made = {}, set(), set()
    for path, text in texts.items():
        if not path.endswith(".antt"):
            continue
        for line in text.split("\n"):
            m = DECLARED.match(line)
            if not m or m[3].startswith(("--", "+")):
                continue
            if MADE.search(m[4]):
                made.add(m[3])
                continue
            if m[3][0].isupper() and "-" not in m[3]:
                continue
            if snake(m[3]) != m[3]:
                turned[m[3]] = snake(m[3])
                if m[1] and "pub" in m[2]:
                    fields.add(m[3])
    for name in LEMMAS + LEMMAS_TURNED:
        turned[name] = snake(name) + "_lem"
    return turned, fields, made


def respelled(text, turned, fields, kept):
    def one(m):
        word, behind = m[0], text[m.start() - 1 : m.start()]
        if word not in turned or word in kept or (behind == "." and word not in fields and not re.search(r"[A-Z]\w*\.$", text[: m.start()])):
            return word
        return turned[word]

    return re.sub(WORD, one, text)


def in_spans(text, turned, fields, kept):
    return re.sub(r"`[^`\n]+`", lambda m: respelled(m[0], turned, fields, kept), text)


def in_antt(text, turned, fields, kept):
    parts = re.split(r"(--[^\n]*)", text)
    return "".join(in_spans(p, turned, fields, kept) if p.startswith("--") else respelled(p, turned, fields, kept) for p in parts)


def in_rt(text, turned, fields, kept):
    camel = {old: new for old, new in turned.items() if re.search("[A-Z]", old) and "-" not in old}
    parts = re.split(r"(//[^\n]*|b?\"(?:\\.|[^\"\\])*\")", text)
    return "".join(in_spans(p, turned, fields, kept) if p.startswith("//") else p if p[:2] in ('b"',) or p[:1] == '"' else respelled(p, camel, fields, kept) for p in parts)


def in_edit(text, turned, fields, kept):
    def pair(line):
        line = re.sub(r"(?<=[\w'′)]) \.(?=[a-z])", ".", line).replace("′", "'")
        return respelled(line, turned, fields, kept)

    return "\n".join(pair(line) if line.startswith(("old:", "new:")) else line for line in text.split("\n"))


def main(top):
    texts = {}
    for path in files(top):
        with open(path, encoding="utf-8") as f:
            texts[path] = f.read()
    turned, fields, made = table(texts)
    functions = {n for path, text in texts.items() if path.endswith(".rt") for n in re.findall(r"\bfn (\w+)", text)}
    meets = []
    for path, text in texts.items():
        if not path.endswith((".antt", ".rt")):
            continue
        words = set(re.findall(WORD, re.sub(r"--[^\n]*|//[^\n]*", "", text)))
        kept = of_library(text)
        met = {}
        for old in sorted(words & set(turned) - kept):
            met.setdefault(turned[old], []).append(old)
        for new, olds in met.items():
            # a Rust function, a module or a folder of proofs may have a definition's name
            if len(olds) > 1 or new in words and new not in functions and new not in LEMMAS_TURNED:
                meets.append(f"{path}: {' and '.join(olds)} would be {new}")
    if meets:
        print("\n".join(meets))
        return 1
    count = 0
    for path, text in texts.items():
        kept = of_library(text)
        if path.endswith("Proof.antt"):
            kept |= {m[3] for m in map(DECLARED.match, text.split("\n")) if m and MADE.search(m[4])} - {w for w in turned if w.endswith("-spec")}
        names = turned if path.endswith((".antt", ".rt")) else turned | {n: snake(n) for n in BY_PORT}
        kind = {"antt": in_antt, "rt": in_rt, "edit": in_edit, "md": in_spans}[path.rsplit(".", 1)[1]]
        new = kind(text, names, fields, kept)
        if new != text:
            count += 1
            with open(path, "w", encoding="utf-8") as f:
                f.write(new)
    print(f"{len(turned)} names, {count} files")
    if "--table" in sys.argv:
        print("\n".join(f"{a}\t{b}" for a, b in sorted(turned.items())))
    return 0


if __name__ == "__main__":
    words = [w for w in sys.argv[1:] if not w.startswith("--")]
    raise SystemExit(main(words[0] if words else "."))
