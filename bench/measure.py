#!/usr/bin/env python3
"""Times programs on the same jobs in turn: measure.py [--rounds N] [--seconds S] [--only TEXT] NAME=PROGRAM..

Each round runs every program once on each job, with enough repetitions for S seconds of the first program, and once with no
repetition. The time of one call is the processor time less the median of those without, divided by the repetitions; printed are medians over
the rounds, the spread as least and most, and how a program's medians and least times compare with the first one's. Sums of
answers must agree.
"""
import argparse, os, statistics, subprocess, tempfile

from workloads import LINES, RUN, WORKLOADS


def processor_time(program, job, times):
    """Seconds of processor time for a job, and the sum of its answers."""
    with tempfile.TemporaryFile() as file:
        file.write(job.written(times))
        file.seek(0)
        child = subprocess.Popen([program], stdin=file, stdout=subprocess.PIPE)
        said = child.stdout.read().split()
        _, status, usage = os.wait4(child.pid, 0)
        child.returncode = status
        assert status == 0 and said, (program, status, said)
        return usage.ru_utime + usage.ru_stime, int(said[-1])


def repetitions(program, job, seconds):
    """How many repetitions take about so long."""
    times = 1
    while True:
        took = processor_time(program, job, times)[0] - processor_time(program, job, 0)[0]
        if took > seconds / 20:
            return max(1, int(times * seconds / took))
        times *= 4


def counted(job, total, times):
    """What one call got through: the steps of a run that gave a result, the lines of a text, and of a check nothing that is counted."""
    return {RUN: (total // times - 100, 'steps'), LINES: (len(job.program) // 4, 'lines')}.get(job.mode)


def report(name, job, programs, times, figures, total):
    print('%s (%d repetitions)' % (name, times))
    first, count = figures[programs[0][0]], counted(job, total, times)
    for label, _ in programs:
        all_rounds = figures[label]
        middle = statistics.median(all_rounds)
        text = '  %-8s %12.3f us a call (%.3f to %.3f)' % (label, middle * 1e6, min(all_rounds) * 1e6, max(all_rounds) * 1e6)
        if count:
            text += ', %8.2f million %s a second' % (count[0] / middle / 1e6, count[1])
        print(text + ', %.2f by medians, %.2f by least' % (middle / statistics.median(first), min(all_rounds) / min(first)), flush=True)


def measure(name, job, programs, rounds, seconds):
    """All rounds of one job, and what is printed of them."""
    times = repetitions(programs[0][1], job, seconds)
    idle, busy, totals = {label: [] for label, _ in programs}, {label: [] for label, _ in programs}, set()
    for _ in range(rounds):
        for label, program in programs:
            idle[label].append(processor_time(program, job, 0)[0])
            took, total = processor_time(program, job, times)
            busy[label].append(took)
            totals.add(total)
    assert len(totals) == 1, ('answers differ', totals)
    figures = {label: [(took - statistics.median(idle[label])) / times for took in busy[label]] for label, _ in programs}
    report(name, job, programs, times, figures, totals.pop())


def main():
    p = argparse.ArgumentParser(usage=__doc__)
    p.add_argument('--rounds', type=int, default=5)
    p.add_argument('--seconds', type=float, default=0.5)
    p.add_argument('--only', default='')
    p.add_argument('programs', nargs='+')
    o = p.parse_args()
    programs = [word.split('=', 1) for word in o.programs]
    for name, job in WORKLOADS.items():
        if o.only in name:
            measure(name, job, programs, o.rounds, o.seconds)


main()
