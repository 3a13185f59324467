"""What a report counts, of a module or of all of them together, and in words."""
from __future__ import annotations

from dataclasses import dataclass

from common.markup import count_of
from readers.report import Module


@dataclass(frozen=True)
class Totals:
    """Places, those with a fact, facts, and facts that there can be; and of the places that are left out of them how many
    there are, and how many of these have a fact."""

    places: int
    executed: int
    facts: int
    possible: int
    left_out: int
    left_out_executed: int

    def words(self) -> str:
        """The counts in words."""
        told = f"{self.executed:,} of {count_of(self.places, 'place')} executed, "
        told += f"{self.facts:,} of {count_of(self.possible, 'fact')} shown."
        return f"{told} {self.left_out_words()}" if self.left_out else told

    def left_out_words(self) -> str:
        """How many places are left out."""
        executed = f", {self.left_out_executed:,} of them executed" if self.left_out_executed else ""
        return f"{count_of(self.left_out, 'place')} left out{executed}."


def totals_of(modules: list[Module]) -> Totals:
    """The totals of these modules."""
    left_out = [line for it in modules for line in it.lines if line.is_left_out]
    return Totals(
        sum(it.places for it in modules), sum(it.executed for it in modules),
        sum(it.facts for it in modules), sum(it.possible for it in modules),
        len(left_out), sum(it.mark != "^" for it in left_out),
    )


def percent(part: int, whole: int) -> int:
    """Of a hundred, rounded down, so that 100 is all."""
    return 100 * part // whole if whole else 100


def unlisted_words(name: str, count: int) -> tuple[str, str]:
    """What is told of a module in which instructions ran that its listing doesn't have, and what that comes to."""
    told = f"{count_of(count, 'execution')} in {name} on no instruction line of its listing."
    return told, "Where lines are missing, its counts are better than the truth."
