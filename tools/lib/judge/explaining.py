"""The explanations of what a run has shown so far: hypotheses on its free choices, each once, and bounds in the place of
too many."""
from collections import Counter
from typing import List, Union

from . import bounds
from .bounds import Bounds
from .hypothesis import Hypothesis
from .known import Known

MOST_HYPOTHESES = 32
Explanation = Union[Hypothesis, Bounds]


def after_silent_steps(known: Known, explanations: List[Explanation]) -> List[Explanation]:
    """The explanations after the silent steps before an allocation: a reclaim if the scan of a collection has
    finished, then a flip of the full levels if no collection runs."""
    quiet = [one for one in explanations if one.is_quiet()]
    if len(quiet) == len(explanations):
        return explanations
    others = [one for one in explanations if one not in quiet] if quiet else explanations
    found = few(known, [after for one in others for after in one.reclaimed_if_over()])
    return few(known, quiet + [after for one in found for after in one.flipped_if_full()])


def few(known: Known, explanations: List[Explanation]) -> List[Explanation]:
    """The explanations without those that are alike, and as bounds if they are too many."""
    if len(explanations) == 1:
        return explanations
    exact = unlike([one for one in explanations if isinstance(one, Hypothesis)])
    loose = [one for one in explanations if isinstance(one, Bounds)]
    if len(exact) > MOST_HYPOTHESES:
        loose += map(bounds.of, exact)
        exact = []
        known.relax("bounds")
    return [*exact, *bounds.joined_by_phase(loose)]


def unlike(hypotheses: List[Hypothesis]) -> List[Hypothesis]:
    """Each hypothesis once."""
    counts = Counter(one.counts() for one in hypotheses)
    if len(counts) == len(hypotheses):
        return hypotheses
    return list({one.key() if counts[one.counts()] > 1 else at: one for at, one in enumerate(hypotheses)}.values())


def exact_again(known: Known, explanations: List[Explanation]) -> List[Explanation]:
    """The explanations after a reply that showed that a collection begins or ends. Bounds that know enough are hypotheses
    again."""
    found = few(known, explanations)
    return [bounds.exact(one) or one if isinstance(one, Bounds) else one for one in found]
