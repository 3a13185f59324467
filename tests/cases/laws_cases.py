"""Crates cite the lemmas of crates below them through proofs/Laws.antt alone, no lemma stands twice, and tests/laws tells where that isn't so."""
from __future__ import annotations

import os
import shutil
import subprocess

from fixtures.harness import TOP, equal, folder


def laws(top: str) -> subprocess.CompletedProcess[str]:
    return subprocess.run([f"{top}/tests/laws"], capture_output=True, text=True, check=False)


def in_place() -> None:
    """tests/laws: crates cite what Laws passes on, and nothing else, and no lemma stands twice"""
    ran = laws(TOP)
    count = ran.stdout.split(" ", maxsplit=1)[0]
    assert not ran.returncode and count.isdecimal() and 100 < int(count) < 600, ran.stdout[-300:] + ran.stderr


def otherwise() -> None:
    """tests/laws: another module's lemma, a public module, a lemma in Laws, a name that no one cites and a lemma said twice are told"""
    with folder() as at:
        os.mkdir(f"{at}/tests")
        shutil.copy2(f"{TOP}/tests/laws", f"{at}/tests/laws")
        for name, text in {
            "low/proofs/Lib.antt": "pub mod Sums\npub mod Laws\n",
            "low/proofs/Laws.antt": "-- Laws.\npub use Rattle.low.proofs.Sums.{one, two, three, four}\npub five : one\n",
            "low/proofs/Sums.antt": "use Rattle.low.proofs.Sums.{one}\nless : (a b : ℕ) → a < b →\n    a ≤ b\nless a b h = omega arith\n",
            "high/proofs/More.antt": "pub at_most : (i n : ℕ) → i < n → i ≤ n\nturned : (n i : ℕ) → i < n → i ≤ n\npub of : (a b : ℕ) → ℕ\n",
            "high/specs/Meaning.antt": "pub of : (a b : ℕ) → ℕ\n",
            "high/proofs/add/Answers.antt": "use Rattle.low.proofs.Laws.{one, two as second}\nuse Rattle.low.proofs.Sums.{six}\n",
            "high/src/lib.rt": "#![tactic(auto, using(low::proofs::Laws::three, low::proofs::Sums::seven, crate::proofs::Own::eight))]\n",
        }.items():
            os.makedirs(os.path.dirname(f"{at}/crates/{name}"), exist_ok=True)
            with open(f"{at}/crates/{name}", "w", encoding="utf-8") as file:
                file.write(text)
        ran = laws(at)
    equal((ran.returncode, ran.stdout.splitlines()), (1, [
        "crates/high/proofs/add/Answers.antt cites low.proofs.Sums",
        "crates/high/src/lib.rt cites low.proofs.Sums",
        "said by at_most of high/proofs/More.antt and by less of low/proofs/Sums.antt",
        "low: proofs.Sums is public",
        "low: no crate cites four of proofs.Laws",
        "low: proofs.Laws has 'pub five : one'",
        "4 lemmas are cited by crates above theirs",
    ]))


CHECKS = [in_place, otherwise]
