"""Turns the repository's own names to today's spelling, once, after the toolchain's porting script.

    python3 tools/spell.py            at the top of the repository

Definitions, fields and lemmas are in snake case, types in camel case; a dash stands only between two names that a lemma
is about. The crate `hex` is named `hexadecimal`, since the toolchain has a library of the first name. Functions of src/,
strings, inputs and outputs keep their names.
"""
import os
import re
import sys

# definitions and fields, and lemmas whose parts are plain words: each dash becomes an underscore
SNAKE = """
first-bits load-answer take-answer load-refusals take-refusals pad-refusals cap-refusals span-refusals layer-name
refusal-text generator-number generator-layer pad-number pad-layer cap-number cap-layer span-number span-layer cap-answer
cap-meaning cap-meant cap-sound ahead-meaning ahead-meant ahead-sound apply-answer apply-after apply-buffer line-number
pad-kind pad-bit pad-meaning pad-answer meaning-of meant-of sound-of stream-meant stream-sound hex-digit hex-text line-name
delivered-text line-feed reply-text exchange-answer seal-after seal-answer seal-message
key-bits key-whole key-least key-most longest-most limit-least limit-most key-length variable-length place-within
as-number-below as-number-more as-number-zeros run-append run-below run-same bit-of-run bits-of-run bit-value flag-below
leading-bits xor-flags xor-runs xor-of-bits xor-bit byte-of-same byte-of-xor byte-of-zeros bit-of-byte first-bits-length
number-of-first-bits first-bits-of-byte keystream-append keystream-none keystream-length keystream-below keystream-joined
keystream-front keystream-rest bits-of-keystream sealed-length sealed-at sealed-clear sealed-none sealed-twice sealed-bit
laid-before laid-at laid-past laid-over laid-byte none-laid false-xor xor-false mask-byte mask-bit byte-index bits-of-length
bits-of-at down-up up-down small-byte even-length load-loads take-accepts take-moves apply-accepts apply-moves apply-seals
apply-twice drawn-laid drawn-moves drawn-word held-front held-rest back-less hex-high hex-low hex-length hex-push bytes-push
take-pair high-ascii low-ascii bytes-at byte-string line-below line-is first-or-zero pad-byte stream-fits seal-again
seal-fits seal-moves seal-seals
""".split()
OTHERS = {
    "as-number-append": "as_number-append",
    "Loaded-fits": "LoadedFits",
    "Byte-string": "ByteString",
    "Reads-letter": "ReadsLetter",
    "Reads-none": "ReadsNone",
}
NAMES = {name: name.replace("-", "_") for name in SNAKE} | OTHERS
# what the porting script turned already is turned in the docs here
DOCS = NAMES | {name: name.replace("-", "_") for name in "bit-at as-number bits-of byte-of load-after take-after".split()}
TOKEN = re.compile(r"[A-Za-z_][A-Za-z0-9_']*(?:-[A-Za-z0-9_']+)*")
CRATE = re.compile(r"\bhex::|(?<=Rattle\.)hex(?=\.)|(?<=`)hex(?=`)|(?<=/)hex(?=/)")


def files(ends):
    for folder, folders, names in os.walk("."):
        folders[:] = sorted(f for f in folders if f not in (".git", "out", "target", "tools"))
        for name in sorted(names):
            if name.endswith(ends):
                yield os.path.join(folder, name)


def turn(path, names):
    with open(path, encoding="utf-8") as f:
        old = f.read()
    # labels that the porting script took from the definition they cite
    new = re.sub(r"\brequires ahead_sound\b", "requires sound", old)
    new = TOKEN.sub(lambda m: names.get(m.group(), m.group()), new)
    new = CRATE.sub(lambda m: m.group().replace("hex", "hexadecimal"), new)
    if path.endswith("crates.txt"):
        new = re.sub(r"\bhex\b", "hexadecimal", new)
    if new != old:
        with open(path, "w", encoding="utf-8") as f:
            f.write(new)


def taken():
    """Names that stand in the crates already, and into which another would fall; a field and a method may share one."""
    found = set()
    for path in files((".antt", ".rt")):
        with open(path, encoding="utf-8") as f:
            found.update(TOKEN.findall(re.sub(r"\brequires \w+", "", f.read())))
    return sorted(found & set(NAMES.values()) - {"key_bits"})


def main():
    if taken():
        sys.exit("these names stand already: " + " ".join(taken()))
    for path in files((".antt", ".rt", ".edit")):
        turn(path, NAMES)
    for path in files((".md", "crates.txt", ".py")):
        turn(path, DOCS)
    os.rename("crates/hex", "crates/hexadecimal")


main()
