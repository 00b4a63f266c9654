"""Runs a test, counts what passed and failed, and prints the count: the shared main of tests/test_*.py.

A test is a sequence of plays. A play is a function without arguments that answers, for each of its runs, None where the
run passed, and else a text that says what was wrong.
"""
import concurrent.futures
import os


def jobs():
    """How many plays are run at a time: as many as there are processors. `JOBS=1` has one at a time."""
    return int(os.environ.get('JOBS') or len(os.sched_getaffinity(0)))


def answers_of(play):
    """The answers of a play, all of which are made here."""
    return list(play())


def results(plays, pool=concurrent.futures.ThreadPoolExecutor):
    """Runs the plays, some at a time: in threads, or in processes where the pool is one of these. Gives the answers of
    each play, in their order."""
    with pool(jobs()) as running:
        yield from running.map(answers_of, plays)


def report(answers):
    """Prints a line 'FAILED: ..' for each run that failed, and then the last line of the test, 'N passed, M failed'.
    Takes the answers of each play, and answers the exit status: 1 where a run failed, or where there was none."""
    passed = failed = 0
    for of_play in answers:
        for wrong in of_play:
            passed, failed = passed + (wrong is None), failed + (wrong is not None)
            if wrong is not None:
                print('FAILED: ' + wrong, flush=True)
    print('%d passed, %d failed' % (passed, failed))
    return 1 if failed or not passed else 0


def run_all(plays, pool=concurrent.futures.ThreadPoolExecutor):
    """Runs the plays and reports them. Answers the exit status."""
    return report(results(plays, pool))
