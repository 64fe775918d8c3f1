"""What is rarely meant in a catalogue: keys that it does not have, and an interval at which cyclic frames do not count as newer. These are warnings:
they change neither what the program prints nor its status.
"""

from planning import judge, keys

# A frame is newer than the last one that was accepted if its CycleCounter is at most this far ahead, modulo the other number.
NEWEST, ROUND = 61_440, 65_536


def of_interval(tree):
    """Of an interval that is longer than the CycleCounter of a newer frame can be ahead."""
    project = tree.get("Project") if isinstance(tree, dict) else None
    numbers = [project.get(key) if isinstance(project, dict) else None for key in ("SendClockFactor", "ReductionRatio", "DataHoldFactor")]
    if not all(isinstance(number, int) and not isinstance(number, bool) for number in numbers):
        return
    clock, ratio, hold = numbers
    interval = clock * ratio
    if not NEWEST < interval <= ROUND:
        return
    front = f"Project.ReductionRatio: the interval, SendClockFactor times ReductionRatio, is {interval} units, and {NEWEST} is the most at which each frame counts. "
    if interval == ROUND:
        yield front + "No frame after the first one is newer by its CycleCounter, so the relation ends as no data is held any longer (cause 4)"
        return
    taken = -(-(ROUND - NEWEST) // (ROUND - interval))
    yield front + (f"Only one frame in {taken} is newer by its CycleCounter" +
                   (f", so with DataHoldFactor {hold} the relation ends as no data is held any longer (cause 4)" if hold <= taken else ""))


def of_catalogue(octets):
    """The warnings of a catalogue."""
    try:
        tree = judge.tree_of(octets)
        return [*(f"{judge.shown(where)} {text}" for where, text in keys.warnings(tree)), *of_interval(tree)]
    except (judge.Fault, RecursionError):
        return []
