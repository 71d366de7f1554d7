"""How the run of a scenario can end, as far as it was explored."""

from __future__ import annotations

from dataclasses import dataclass, field
from typing import Any

from .ends import End, differing, listed, order_text
from .explored import Explored, Found
from .preemptions import Search
from .program import Mistake, Program
from .scenario import Scenario, with_schedule


@dataclass
class Ways:
    """The outcomes of a scenario that were found by following every order, by a search, or by both."""

    scenario: Scenario
    program: Program
    ends: list[End] = field(default_factory=list)
    explored: Explored | None = None
    search: Search | None = None

    @property
    def is_whole(self) -> bool:
        """Whether every order is covered."""
        is_followed = self.explored is not None and not self.explored.is_prefix
        return is_followed or (self.search is not None and self.search.is_whole)

    def end(self, number: int) -> End:
        """Returns the outcome with a number, from 1."""
        if not 1 <= number <= len(self.ends):
            raise Mistake(f"there is no outcome {number}: there are {len(self.ends)}")
        return self.ends[number - 1]

    def chosen(self, number: int) -> Scenario:
        """Returns the scenario with the schedule of an outcome."""
        return with_schedule(self.scenario, listed(self.end(number).found.picks))

    def as_json(self) -> dict[str, Any]:
        outcomes = [
            {"number": number, **row_json(end.found), "schedule": listed(end.found.picks),
             "order": order_text(end.found.picks, self.scenario), "things": end.things}
            for number, end in enumerate(self.ends, 1)
        ]
        shown: dict[str, Any] = {"program": self.program.path, "version": self.program.version(),
                                 "every_order": self.is_whole, "outcomes": outcomes,
                                 "differs": [each.as_json() for each in differing(self.ends)]}
        if self.explored:
            shown["explored"] = {"states": self.explored.states, "front": self.explored.is_prefix}
        if self.search:
            shown["search"] = [vars(level) for level in self.search.levels]
        return shown


def row_json(found: Found) -> dict[str, int]:
    """Returns the numbers of an outcome."""
    return {key: value for key, value in vars(found.row).items() if key != "detail"}
