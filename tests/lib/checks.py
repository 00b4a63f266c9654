"""Checks of running programs: functions that raise Wrong where something is not as expected, and groups of them."""
import concurrent.futures
import functools
import traceback

from lib import runner


class Wrong(Exception):
    """What was wrong with a connection or a run."""


def expect(what, found, expected):
    """Compares what was found."""
    if found != expected:
        raise Wrong('%s: %r, expected %r' % (what, found, expected))


def checked(name, check, *given):
    """Makes a check of this name, and answers what was wrong, or None."""
    try:
        check(*given)
        return None
    except Exception as wrong:  # whatever it is, the other checks are made
        return '%s: %s: %s' % (name, type(wrong).__name__, wrong)


def with_each_refused(run):
    """Checks runs with an allocation refused: the first one, then the second one, until a run makes fewer allocations,
    which are more than ten. The function runs with the allocation of a number refused, and answers whether it came to
    that allocation."""
    number, was_refused = 0, True
    while was_refused:
        number, seen = number + 1, []
        yield checked('allocation %d is refused' % number, lambda: seen.append(run(number)))
        was_refused = any(seen)
    yield checked('allocations are refused', expect, 'their number', number > 10, True)


def answers_of_group(name, group, given):
    """What was wrong in each check of a group, or None. What the group raises itself is one more check, which failed:
    its text alone comes to the other process, in which the exception may not be known."""
    answers = []
    try:
        for wrong in group(*given):
            answers.append(wrong and '%s, %s' % (name, wrong))
    except Exception:  # whatever it is, the other groups are run
        answers.append('%s: %s' % (name, traceback.format_exc().rstrip()))
    return answers


def run_all(groups):
    """Runs groups of checks: of each its name, a function that answers what was wrong in each check, and what that is
    called with. Answers the exit status. Each group is run in a process of its own: a program that another thread
    starts would have the connections of this one for a moment, and they would end later."""
    plays = [functools.partial(answers_of_group, *group) for group in groups]
    return runner.run_all(plays, concurrent.futures.ProcessPoolExecutor)
