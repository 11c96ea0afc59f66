"""The search for the least sets of faulty parts that explain several patterns.

All states of the board are parted into regions: in each some parts are held bad and some ok. What is least of a pattern within a region
bounds the whole region, and so does the greatest of these bounds. A region whose bound is the cost that is tried has a pattern that is
tight: what explains all at that cost is listed there. Each other pattern then says which of these sets explain it too, many at a time:
only parts of these sets are left free, so that little else is listed. Where too much is listed, or nothing of that cost is found, a region
is parted by what a tight pattern blames: one of these parts is bad, and those before it ok; or all are ok, and then the pattern costs
more. Gates may do anything when they are faulty, so with more faults they explain no less: small sets that explain a pattern are kept for
all regions. Of other parts nothing is taken for granted, so what they may do when they are faulty makes no difference.
"""

from __future__ import annotations

import dataclasses
import functools
import heapq
import itertools
import operator
import sys
from collections.abc import Iterator

from ..errors import Inconsistent
from .holding import Copies, Least, Question

# So many sets are listed if they may be all that is wanted, and if sets at hand are looked at.
MOST_LISTED = 1000
AT_HAND = 200
# So few sets are asked about one by one, and one more for so many parts, since it takes a line to hold each part.
FEW = 2
PARTS_A_SET = 400
NEVER = sys.maxsize


@dataclasses.dataclass
class Region:
    """The states in which some parts are bad and some ok, and what is known of each pattern there; `bounds` are lower bounds of its cost.

    What `among` leaves out is ok too, and it is not held. It is set only if cheaper and dearer states do not count.
    """

    bad: int
    ok: int
    among: int
    bounds: list[int]
    # What is least here, and what is least in a region around this one, not yet looked at.
    known: dict[int, Least] = dataclasses.field(default_factory=dict)
    around: dict[int, Least] = dataclasses.field(default_factory=dict)

    @property
    def cost(self) -> int:
        """A lower bound of all states."""
        return max(self.bounds)

    def least(self, place: int) -> Least | None:
        """What is least of a pattern, if it is known."""
        around = self.around.pop(place, None)
        if around is not None:
            within = around.within(self.bad, self.ok)
            if within is None:
                self.bounds[place] = max(self.bounds[place], around.cost + 1)
            else:
                self.known[place] = within
        return self.known.get(place)

    def child(self, bad: int, ok: int, among: int | None = None) -> Region:
        """A region within this one."""
        region = Region(self.bad | bad, self.ok | ok, self.among if among is None else among, list(self.bounds))
        for place, least in (self.known | self.around).items():
            if region.bad & ~least.some or region.ok & least.always:
                region.bounds[place] = max(region.bounds[place], least.cost + 1)
            elif least.is_all:
                region.around[place] = least
        return region

    def question(self, place: int) -> Question:
        """What is least of a pattern?"""
        return Question(place, self.bad, self.ok)

    def note(self, place: int, least: Least | None) -> None:
        """What is least of a pattern was asked."""
        self.bounds[place] = NEVER if least is None else least.cost
        if least is not None:
            self.known[place] = least


class Enough:
    """Small sets of parts that explain a pattern: none, one, or two. In a plain device all that has one of them explains it too."""

    def __init__(self) -> None:
        self.is_none = False
        self.ones = 0
        self._twos: dict[int, int] = {}

    def note(self, least: Least | None) -> None:
        """Takes what is listed."""
        for found in [] if least is None or least.cost > 2 else least.listed:
            other = found & (found - 1)
            if not found:
                self.is_none = True
            elif not other:
                self.ones |= found
            else:
                for bit in (found ^ other, other):
                    self._twos[bit] = self._twos.get(bit, 0) | (found ^ bit)

    def explains(self, found: int) -> bool:
        """Whether a set has one of them."""
        if self.is_none or found & self.ones:
            return True
        left = found
        while left:
            bit = left & -left
            if self._twos.get(bit, 0) & found:
                return True
            left ^= bit
        return False


class Search:
    """The sets of least cost that explain all patterns, in name order, found as they are taken.

    With `is_plain` each part costs 1 and a faulty one may do anything, as gates of a netlist: then more faulty parts explain no less.
    """

    def __init__(self, copies: Copies, is_plain: bool) -> None:
        self._copies = copies
        self._is_plain = is_plain
        # Patterns that often refute are asked first.
        self._first = list(range(len(copies.sessions)))
        self._regions: list[Region] = []
        self._enough = [Enough() for _ in copies.sessions]
        # The patterns whose pairs are all still to be asked.
        self._with_pairs: set[int] = set()

    def found(self) -> Iterator[int]:
        """The sets. Raises `Inconsistent` if nothing explains all patterns."""
        root = self._root()
        waiting = [root] if root is not None else []
        while waiting:
            cost = min(region.cost for region in waiting)
            self._copies.reach(cost)
            # What is found out raises the costs of regions, so those that cost more are told apart first.
            dearer = [region for region in waiting if region.cost > cost]
            self._regions = [region for region in waiting if region.cost == cost]
            sets = self._in_order(cost)
            first = next(sets, None)
            if first is not None:
                yield first
                yield from sets
                return
            waiting = dearer
            for region in self._regions:
                waiting += self._parted(region, cost)
        raise Inconsistent(", ".join(session.pattern for session in self._copies.sessions))

    def has(self, bad: int, ok: int) -> bool:
        """Whether one of the sets has these parts and not those. A set was found before."""
        return any(
            next(self._solutions(region.child(bad, ok), self._copies.cost), None) is not None
            for region in self._regions
            if not (region.bad & ok or region.ok & bad)
        )

    def _in_order(self, cost: int) -> Iterator[int]:
        """The sets of this cost in all regions, in name order. A region is looked into once no other has a set before all of its own."""
        waiting: list[tuple[int, int, Iterator[int] | None]] = []
        for place, region in enumerate(self._regions):
            heapq.heappush(waiting, (-self._before_all(region, cost), place, None))
        while waiting:
            first, place, sets = heapq.heappop(waiting)
            if sets is None:
                sets = self._solutions(self._regions[place], cost)
            else:
                yield -first
            for found in itertools.islice(sets, 1):
                heapq.heappush(waiting, (-found, place, sets))

    def _before_all(self, region: Region, cost: int) -> int:
        """A set that no set of this cost in a region is before, in name order."""
        free = region.among & ~region.bad & ~region.ok
        if self._is_plain:
            free = sum(itertools.islice(self._copies.parts.each(free), max(0, cost - region.bad.bit_count())))
        return region.bad | free

    def _root(self) -> Region | None:
        """All that the parts that are held leave open. A pattern that nothing explains alone is named."""
        parts, sessions = self._copies.parts, self._copies.sessions
        bad = ok = 0
        held = []
        for session in sessions:
            for_it = [parts.set_of([part for part, mode in session.held.items() if mode == word]) for word in ("bad", "ok")]
            bad, ok = bad | for_it[0], ok | for_it[1]
            held.append(for_it)
        alone = self._copies.least([Question(place, *for_it) for place, for_it in enumerate(held)], MOST_LISTED)
        root = Region(bad, ok, parts.all, [0] * len(sessions))
        for place, least in enumerate(alone):
            if least is None:
                raise Inconsistent(sessions[place].pattern)
            root.bounds[place] = least.cost
            self._enough[place].note(least)
            if least.cost == 1 and least.is_all and not any(held[place]):
                self._with_pairs.add(place)
            if held[place] == [bad, ok]:
                root.known[place] = least
            elif least.is_all:
                root.around[place] = least
        return root if not bad & ok else None

    def _tight(self, region: Region, cost: int) -> dict[int, Least]:
        """Patterns whose least cost is all that may be spent, until one lists all, and more than what is held bad. None if one costs more:
        then the bound of the region is greater."""
        self._copies.sets += 1
        tight: dict[int, Least] = {}
        waiting = sorted(self._first, key=lambda place: -region.bounds[place])
        for place in list(waiting):
            least = region.least(place)
            if least is not None:
                waiting.remove(place)
                if least.cost == cost:
                    tight[place] = least
        waiting.sort(key=lambda place: -region.bounds[place])
        size = 2
        while waiting and region.cost <= cost and not any(least.is_all and least.listed[0] != region.bad for least in tight.values()):
            asked, waiting, size = waiting[:size], waiting[size:], 2 * size
            answers = self._copies.least([region.question(place) for place in asked], MOST_LISTED)
            for place, least in zip(asked, answers, strict=True):
                region.note(place, least)
                if least is None or least.cost > cost:
                    self._first.remove(place)
                    self._first.insert(0, place)
                elif least.cost == cost:
                    tight[place] = least
        return tight if region.cost <= cost else {}

    def _suspects(self, region: Region, tight: dict[int, Least]) -> dict[int, Least]:
        """Those of these patterns that ask for more than what is held bad, once it is known what each blames."""
        tight = {place: least for place, least in tight.items() if least.listed[0] != region.bad}
        for place, least in tight.items():
            if not least.is_all and least.some == -1:
                self._copies.blame(region.question(place), least)
        return tight

    def _solutions(self, region: Region, cost: int) -> Iterator[int]:
        """The sets of this cost within a region that has none cheaper, in name order."""
        ways = [iter([region])]
        while ways:
            within = next(ways[-1], None)
            if within is None:
                ways.pop()
                continue
            tight = self._tight(within, cost) if within.cost <= cost else {}
            if within.cost > cost:
                continue
            if any(least.is_all for least in tight.values()):
                yield from sorted(self._agreed(within, cost, tight), reverse=True)
                continue
            tight = self._suspects(within, tight)
            always = functools.reduce(operator.or_, (least.always for least in tight.values()), within.bad)
            some = functools.reduce(operator.and_, (least.some for least in tight.values()), within.among)
            choices = some & ~within.bad & ~within.ok
            if not always & ~some and choices:
                ways.append(iter([within.child(always, 0, some)]) if always != within.bad else self._choices(within, choices, some))

    def _choices(self, region: Region, choices: int, some: int) -> Iterator[Region]:
        """One of these parts is bad, and those before it ok."""
        before = 0
        for bit in self._copies.parts.each(choices):
            yield region.child(bit, before, some)
            before |= bit

    def _agreed(self, region: Region, cost: int, tight: dict[int, Least]) -> set[int]:
        """Which of the sets that a tight pattern lists explain all others too."""
        whole = [least.listed for least in tight.values() if least.is_all]
        sets = {found for found in set(whole[0]).intersection(*whole[1:]) if not found & ~region.among}
        places = [place for place in self._first if place not in tight or not tight[place].is_all]
        places.sort(key=lambda place: -region.bounds[place])
        size = 2
        while places and sets:
            asked, places, size = places[:size], places[size:], 2 * size
            if cost > 2:
                self._ask_pairs([place for place in asked if len(self._unsure(sets, place, region.least(place))) > FEW])
            work = [group for place in asked for group in self._groups(place, self._unsure(sets, place, region.least(place)))]
            while work and sets:
                answers = self._copies.least([self._about(place, group) for place, group in work], AT_HAND)
                again: list[tuple[int, set[int]]] = []
                for (place, group), least in zip(work, answers, strict=True):
                    self._enough[place].note(least)
                    left, wrong = self._left(group, place, least, cost)
                    sets -= wrong
                    again += self._split(place, left, least)
                work = [(place, group & sets) for place, group in again if group & sets]
        return sets

    def _ask_pairs(self, places: list[int]) -> None:
        """Asks once which two parts explain a pattern, if one does too."""
        places = [place for place in places if place in self._with_pairs and self._is_plain]
        self._with_pairs.difference_update(places)
        answers = self._copies.least([Question(place, 0, self._enough[place].ones) for place in places], MOST_LISTED) if places else []
        for place, least in zip(places, answers, strict=True):
            self._enough[place].note(least)

    def _unsure(self, sets: set[int], place: int, known: Least | None) -> set[int]:
        """Those of the sets that are not known to explain a pattern."""
        if not self._is_plain:
            return set(sets)
        enough, listed = self._enough[place], () if known is None or known.cost <= 2 else known.listed
        return {found for found in sets if not enough.explains(found) and all(least & ~found for least in listed)}

    def _groups(self, place: int, sets: set[int]) -> list[tuple[int, set[int]]]:
        """The sets that are asked about at a time."""
        if len(sets) <= FEW + len(self._copies.parts.names) // PARTS_A_SET:
            return [(place, {found}) for found in sets]
        return [(place, sets)]

    def _about(self, place: int, group: set[int]) -> Question:
        """What is least if just the parts of these sets are free?"""
        bad = functools.reduce(operator.and_, group)
        free = functools.reduce(operator.or_, group)
        return Question(place, bad, None if len(group) == 1 else self._copies.parts.all & ~free)

    def _left(self, group: set[int], place: int, least: Least | None, cost: int) -> tuple[set[int], set[int]]:
        """After a question about a group: its sets that are still open, and those that do not explain the pattern."""
        if least is None or least.cost > cost:
            return set(), group
        if least.cost < cost:
            return self._unsure(group, place, least), set()
        other = group.difference(least.listed)
        return (set(), other) if least.is_all else (other, set())

    def _split(self, place: int, left: set[int], least: Least | None) -> list[tuple[int, set[int]]]:
        """The groups that are asked about next. Each lists less than what was listed."""
        if not left or least is None:
            return []
        free = functools.reduce(operator.or_, left)
        if least.is_all and all(found & ~free for found in least.listed):
            return self._groups(place, left)
        common = functools.reduce(operator.and_, left)
        halves = (abs(2 * sum(1 for found in left if found & bit) - len(left)) for bit in self._copies.parts.each(free & ~common))
        _, bit = min(zip(halves, self._copies.parts.each(free & ~common), strict=True))
        with_it = {found for found in left if found & bit}
        return self._groups(place, with_it) + self._groups(place, left - with_it)

    def _parted(self, region: Region, cost: int) -> Iterator[Region]:
        """Nothing in a region explains the patterns at this cost. Gives regions that cost more, with all of it that does."""
        ways = [region]
        while ways:
            within = ways.pop()
            tight = self._tight(within, cost) if within.cost <= cost else {}
            if within.cost > cost:
                if within.cost < NEVER:
                    yield within
                continue
            suspects = self._suspects(within, tight)
            undecided = ~(within.bad | within.ok)
            always = max(least.always & undecided for least in suspects.values())
            choices = min((least.some & undecided for least in suspects.values()), key=int.bit_count)
            if always:
                choices = 1 << (always.bit_length() - 1)
            ways.append(within.child(0, choices))
            ways += self._choices(within, choices, within.among)
