#!/usr/bin/env python3
"""Brings the repository's own names to today's spelling and out of the way of the toolchain's libraries.

Run once, at the top of the repository, right after /opt/rattle/port/port.py.
- The module `core` of a crate is `inner`, the crates `json` and `log` are `json_edits` and `session_log`: a library of the
  toolchain has each of these names.
- Definitions and lemmas: words in snake case, types and modules in camel case. Names that would fall together with another name
  get the name that OWN gives them.
Names of functions in src/, of exported functions, strings, inputs and outputs stay. It turns specs/, proofs/, src/, must-fail
edits, and in README and docs/ what stands between backticks.
"""
import collections
import glob
import os
import re
import subprocess

ID = r"[^\s(){}\[\].,;:@\"«»`|]"
WORDS = ("abbrev", "unfoldable", "pub", "opaque", "instance", "private", "irrelevant", "macro", "record", "data", "ruleset")

# The names whose snake case is taken: by a function of src/ whose contract cites them, or by another name in the same scope.
OWN = {
    "isSpace": "is_white_space",
    "textStart": "start_of_text",
    "isCont": "is_continuation",
    "limitsThenRoom": "limits_before_room",
    "leadOf": "lead_from",
    "wellFormed": "is_well_formed",
    "numChars": "number_of_chars",
    "textFrom": "start_of_insert",
    "inLimits": "is_within_limits",
    "hexDigit": "hex_digit_of",
    "hexValue": "value_of_hex",
    "digitValue": "value_of_digit",
    "retainAll": "retain_whole",
    "mayFollow": "can_follow",
    "textBytes": "bytes_of_text",
    "markBehind": "marks_behind",
    "startWell": "starts_with_char",
    "atFront": "put_at_front",
    "goesOn": "goes_further",
    "Nearer-wf": "nearer_wf",
    "last-count": "last_count_is",
    "lead-in": "lead_in_row",
    "well-char": "well_char_encoded",
    "keep-both": "keeps_both",
    "inserts-apart": "inserts_stay_apart",
    "delete-behind": "delete_goes_behind",
    "target-after": "target_after_is",
    "edit-at": "edit_at_is",
    "inverse-in": "inverse_in_is",
    "undo-fault": "undo_fault_is",
    "play-call": "play_call_is",
    "behind-log": "behind_log_unread",
    "size-of": "size_of_held",
    "may-follow": "can_follow_is",
    "over-limit": "over_limit_refused",
    "is-high": "is_high_half",
    "is-low": "is_low_half",
    "in-string": "in_string_no_end",
    "at-end": "at_the_end",
    "live-is": "live_is_same",
    "sizes-of": "sizes_of_state",
    "as-form": "as_form_is",
    "all-of": "all_of_it",
}


# Crates whose names the toolchain's libraries have.
CRATES = {"json": "json_edits", "log": "session_log"}


def move(old, new):
    if os.path.exists(old):
        subprocess.run(["git", "mv", old, new], check=True)


def modules_and_crates():
    for old, new in CRATES.items():
        move("crates/" + old, "crates/" + new)
    for crate in sorted(os.listdir("crates")):
        for old in ("src/core.rt", "src/core", "proofs/core"):
            move(f"crates/{crate}/{old}", f"crates/{crate}/{old.replace('core', 'inner')}")

    def turn(text):
        text = re.sub(r"\bcore::", "inner::", text)
        text = re.sub(r"\bmod core;", "mod inner;", text)
        text = re.sub(r"\b(proofs|specs\.declared|specs\.contracts)\.core\b", r"\1.inner", text)
        text = re.sub(r"src/core\b", "src/inner", text)
        for old, new in CRATES.items():
            text = re.sub(r"(?<![\w:.])" + old + "::", new + "::", text)
            text = re.sub(r"\bRattle\." + old + r"\.", "Rattle." + new + ".", text)
        return text

    for path in files("crates/*/specs/**/*.antt") + files("crates/*/proofs/**/*.antt") + files("crates/*/src/**/*.rt") + files("crates/*/must-fail/*.edit"):
        text = open(path, encoding="utf-8").read()
        new = turn(text)
        if new != text:
            open(path, "w", encoding="utf-8").write(new)
    for path in ["README.md"] + files("docs/**/*.md"):
        text = open(path, encoding="utf-8").read()
        new = re.sub(r"`[^`\n]*`", lambda m: turn(m.group(0)), text)
        if new != text:
            open(path, "w", encoding="utf-8").write(new)
    text = open("crates.txt", encoding="utf-8").read()
    lines = []
    for line in text.split("\n"):
        if not line.startswith("#"):
            line = re.sub(r"[\w]+", lambda m: CRATES.get(m.group(0), m.group(0)), line)
        lines.append(line)
    open("crates.txt", "w", encoding="utf-8").write("\n".join(lines))


def own_snake(name):
    if name in OWN:
        return OWN[name]
    name = name.replace("≢", "_not_").replace("-", "_")
    if name[:1].islower():
        name = re.sub(r"([a-z0-9])([A-Z])", lambda m: m.group(1) + "_" + m.group(2).lower(), name)
    return name


def declared(path):
    for line in open(path, encoding="utf-8"):
        words = line.split(" --", 1)[0].split()
        while words and words[0] in WORDS:
            words.pop(0)
        if not words:
            continue
        if re.match(r"\s*(?:pub )?(?:record|data|ruleset) ", line):
            yield words[0]
        elif ":" in words:
            for word in words[: words.index(":")]:
                if re.fullmatch(ID + "+", word) and word not in ("use", "let", "in", "where", "λ", "--", "mod"):
                    yield word


def files(pattern):
    return sorted(f for f in glob.glob(pattern, recursive=True) if "/out/" not in f)


def main():
    modules_and_crates()
    laws = [f for f in files("crates/*/specs/**/*.antt") + files("crates/*/proofs/**/*.antt") if not f.endswith("/Proof.antt")]
    names = {n for f in laws for n in declared(f)}
    turned = {n: own_snake(n) for n in names if own_snake(n) != n and re.search(r"[A-Za-z]", n)}
    back = collections.defaultdict(set)
    for n in names:
        back[turned.get(n, n)].add(n)
    for n, of in sorted(back.items()):
        if len(of) > 1:
            print("together:", n, sorted(of))

    def turn(text, but=()):
        def one(m):
            w = m.group(0)
            return turned.get(w, w) if w not in but else w

        return re.sub(ID + "+", one, text)

    def code(path):
        text = open(path, encoding="utf-8").read()
        out = []
        here = set()
        if path.endswith("/Proof.antt"):
            here = {m.group(1) for m in re.finditer(r"(?m)^(?:pub )?(" + ID + "+) :", text)}
        for line in text.split("\n"):
            if path.endswith(".antt") and line.lstrip().startswith("--") or path.endswith(".rt") and line.lstrip().startswith("//"):
                out.append(re.sub(r"`[^`]*`", lambda m: turn(m.group(0)), line))
            elif path.endswith(".rt"):
                # Strings of src/ stay as they are.
                out.append("".join(p if p.startswith('"') else turn(p) for p in re.split(r'("(?:[^"\\]|\\.)*")', line)))
            elif line.startswith("use "):
                out.append(turn(line))
            elif here:
                out.append(re.sub(r"(tie\.Need-)?(" + ID + "+)", lambda m: m.group(0) if m.group(1) or m.group(2) in here else turned.get(m.group(2), m.group(2)), line))
            else:
                out.append(turn(line))
        new = "\n".join(out)
        if new != text:
            open(path, "w", encoding="utf-8").write(new)

    for path in files("crates/*/specs/**/*.antt") + files("crates/*/proofs/**/*.antt") + files("crates/*/src/**/*.rt"):
        code(path)
    for path in files("crates/*/must-fail/*.edit"):
        text = open(path, encoding="utf-8").read()
        new = "\n".join(turn(l) if l.startswith(("old:", "new:")) else l for l in text.split("\n"))
        if new != text:
            open(path, "w", encoding="utf-8").write(new)
    for path in ["README.md"] + files("docs/**/*.md"):
        text = open(path, encoding="utf-8").read()
        new = "\n".join(re.sub(r"`[^`]*`", lambda m: turn(m.group(0)), l) for l in text.split("\n"))
        if new != text:
            open(path, "w", encoding="utf-8").write(new)
    print(len(turned), "names turned")


main()
