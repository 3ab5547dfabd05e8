"""`jobs near`: which shots of a job lie beside another arm, nearest first, by the library's `nearest_arm` of their
width."""
from . import host  # so that the binding is found
from .arms import arm_by_limits, single_arm_by_limits
from .floats import DOUBLE, SINGLE
from .layout import ARMS, JOB, SINGLE_ARMS
from .records import guess, load, name_of, older_format_message, scan, walk
from .terminal import Failure, Lines, Progress, count

import sim3

MARKS = ("AR", "CO", "co")  # the records that ask for coefficients: sigma and z stand first
# By the width of a record's numbers: the library's function, the arm of sigma and z, the arms' names, and what a step
# is called.
BY_WIDTH = {
    DOUBLE: (sim3.nearest_arm, lambda sigma, z: arm_by_limits(sigma, z)[0], ARMS, "step"),
    SINGLE: (sim3.f32.nearest_arm, single_arm_by_limits, SINGLE_ARMS, "single step"),
}
assert host


class NearShots:
    """The shots of a job: those within some steps of another arm, and how many there are of each kind."""

    def __init__(self, within):
        self.within, self.near = within, []
        self.shots, self.only_arm, self.refused, self.others = 0, 0, 0, 0

    def add(self, number, layout, sigma, z):
        """A record that asks for coefficients, with its number in the file."""
        self.shots += 1
        try:
            near = BY_WIDTH[layout.width][0](sigma, z)
        except sim3.Refusal:
            self.refused += 1
            return
        except sim3.LibraryMissing as missing:
            raise Failure(f"jobs: near asks the library: {missing}")
        if near is None:
            self.only_arm += 1
        elif near.count <= self.within:
            self.near.append((near.count, number, layout, sigma, z, near))


def lines(found):
    """The shots, nearest first, and the totals."""
    for steps, number, layout, sigma, z, near in sorted(found.near, key=lambda shot: shot[:2]):
        width, (_, arm_of, names, step) = layout.width, BY_WIDTH[layout.width]
        arm = arm_of(sigma, z)
        sigma, z = (width.text(width.to_bits(x)) for x in (sigma, z))
        yield f"record {number}  {layout.mark}  {count(steps, step)} {near.direction} to arm {near.arm} " \
              f"({names[near.arm]}) from arm {arm} ({names[arm]})  sigma {sigma}; z {z}"
    yield f"{len(found.near):,} of {count(found.shots, 'shot')} within {count(found.within, 'step')} of another arm"
    if found.only_arm:
        yield f"{count(found.only_arm, 'shot')} with the same arm at every z"
    if found.refused:
        yield f"{count(found.refused, 'shot')} passed over: z is below zero, or sigma or z is no finite number"
    if found.others:
        yield f"{count(found.others, 'record')} of other marks"


def near(path, within):
    """The command: 0, or 1 where the job is damaged or cut, or 2."""
    data = load(path)
    job_scan = scan(data, JOB, "reading")
    if job_scan.damages and older_format_message(data):
        raise Failure(f"jobs: {name_of(path)}: {older_format_message(data)}")
    if job_scan.damages and len(data) and guess(data) is not JOB:
        raise Failure(f"jobs: {name_of(path)} is an answer file; expected the job file")
    found, progress = NearShots(within), Progress("near", job_scan.records)
    for number, (at, layout) in enumerate(walk(data, JOB), 1):
        if layout.mark in MARKS:
            found.add(number, layout, *layout.numbers.unpack_from(data, at + 2)[:2])
        else:
            found.others += 1
        progress(number)
    progress.end()
    out = Lines()
    out.add(*lines(found), *(f"byte {damage.at}: {damage.text}" for damage in job_scan.damages))
    out.flush()
    return 1 if job_scan.damages else 0
