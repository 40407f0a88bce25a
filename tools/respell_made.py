#!/usr/bin/env python3
"""In proofs/, respells the names that the check makes: names from src/ keep their underscores, and so do the check's own words. Run it at the top, after respell.py."""
import glob
import os
import re

TOKEN = re.compile(r"[^\s(){}\[\],;:.«»\"λ|]+")
WORDS = ["in_err", "in_ok", "in_default", "from_residual", "type_inv", "well_formed", "copy_from_slice", "from_be_bytes", "from_bits", "deref_mut", "saturating_add",
    "saturating_sub", "overflow_add", "overflow_sub", "overflow_mul", "overflow_shl", "overflow_shr", "overflow_cast", "overflow_step", "offset_bounds",
    "slice_bounds", "nonzero_div", "nonzero_rem", "invariant_of", "as_slice", "split_at", "size_of", "le_bytes"]


def read(path):
    with open(path, encoding="utf-8") as f:
        return f.read()


def main():
    rust = set(WORDS)
    for path in glob.glob("crates/*/src/**/*.rt", recursive=True):
        text = re.sub(r"//.*", "", read(path))
        text = re.sub(r"^ghost use .*$|(?:ensures|requires)[^{]*\{[^\n]*\}$", "", text, flags=re.M)
        rust |= {w for w in re.findall(r"\b[A-Za-z]\w*_\w+\b", text)}
    rust = sorted(rust, key=len, reverse=True)
    pattern = re.compile(r"(?<![^-+·])(" + "|".join(w.replace("_", "-") for w in rust) + r")(?![^-+·])")
    ours = set()
    for path in glob.glob("crates/*/proofs/**/*.antt", recursive=True) + glob.glob("crates/*/specs/*.antt"):
        for m in re.finditer(r"^\s*(?:abbrev |unfoldable |pub )*(?:data |record )?(\S+)[^:\n]* : (?!goal\.)", read(path), re.M):
            ours.add(m[1])
    for path in glob.glob("crates/*/proofs/**/*.antt", recursive=True):
        if os.path.basename(path) not in ("Answers.antt", "Invariants.antt"):
            continue
        old = read(path)

        def turn(m):
            return m[0] if m[0] in ours or "-" not in m[0] else pattern.sub(lambda n: n[0].replace("-", "_"), m[0])

        new = "\n".join(line if line.startswith("use Rattle.std") or line.startswith("--") else TOKEN.sub(turn, line) for line in old.split("\n"))
        if new != old:
            with open(path, "w", encoding="utf-8") as f:
                f.write(new)


main()
