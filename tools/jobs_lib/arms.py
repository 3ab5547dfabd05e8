"""`jobs arms`: which rule gave the coefficients of each AR record, counted and drawn."""
import os
from array import array

from .floats import DOUBLE, SINGLE
from .layout import ARMS, BY_SERIES
from .pairs import load_both, pairs, problems
from .plane import picture
from .terminal import Failure, Lines, count

# Where the arms 2 to 5 begin, in sigma sigma + z, at either width; and below which sigma sigma the
# closed arm takes v0 and w0 from series.
ARM_FROM = tuple(map(DOUBLE.from_bits, (0x3F0C70E59CFC9F1F, 0x3FA59742AA36710D,
                                        0x3FD0E8139C96FC79, 0x3FFFB1FFBC2A9C8C)))
SINGLE_ARM_FROM = tuple(map(SINGLE.from_bits, (0x3A7CE158, 0x3E03BA20, 0x3F205DF3, 0x4017C496)))
SERIES_BELOW = DOUBLE.from_bits(0x3FE2A77501626657)
CLOSED = 5

# The rules in the order of the table and of the legend: arm, and whether v0 and w0 are series.
RULES = [(1, 0), (2, 0), (3, 0), (4, 0), (5, 1), (5, 0)]


def arm_by_limits(sigma, z):
    """The arm and the second byte that the limits give; a NaN is below none."""
    square = sigma * sigma
    delta = square + z
    arm = next((arm for arm, end in enumerate(ARM_FROM, 1) if delta < end), CLOSED)
    return arm, int(arm == CLOSED and square < SERIES_BELOW)


def single_arm_by_limits(sigma, z):
    """The arm of two singles that are not NaN: their product and sum are rounded once each, from doubles that
    hold the product, and of the sum what rounding to a single needs."""
    square = SINGLE.from_bits(SINGLE.to_bits(sigma * sigma))
    delta = SINGLE.from_bits(SINGLE.to_bits(square + z))
    return next((arm for arm, end in enumerate(SINGLE_ARM_FROM, 1) if delta < end), CLOSED)


def rule_text(arm, series):
    """`14 terms`, `closed`, `closed; v0, w0 by series`."""
    return "; ".join(filter(None, (ARMS.get(arm, f"arm {arm}"), BY_SERIES.get(series, f"{series}"))))


class ArmRecords:
    """The AR records of a job and what their answers say."""

    def __init__(self):
        self.rules = dict.fromkeys(RULES, 0)
        self.answered, self.refused, self.others = 0, 0, 0
        self.wrong = []  # messages about records whose bytes are not those of the limits
        self.numbers, self.kinds = array("I"), array("B")  # of the answered records, to be drawn
        self.squares, self.angles = array("d"), array("d")

    def add(self, number, sigma, z, answer_bytes):
        """Counts an answered record: its number in the file, and the four bytes of its answer."""
        rule = arm_by_limits(sigma, z)
        self.answered += 1
        if answer_bytes != (*rule, *rule):
            signs = dict.fromkeys((rule_text(*answer_bytes[:2]), rule_text(*answer_bytes[2:])))
            self.wrong.append(f"record {number}  AR  told {', at -sigma '.join(signs)}; "
                              f"the limits give {rule_text(*rule)}")
        if answer_bytes[:2] in self.rules:
            self.rules[answer_bytes[:2]] += 1
            self.numbers.append(number)
            self.kinds.append(RULES.index(answer_bytes[:2]))
            self.squares.append(sigma * sigma)
            self.angles.append(z)

    def arm(self, arm):
        return sum(n for (found, _), n in self.rules.items() if found == arm)


def fill(job, answers, found):
    """Walks both files record by record and fills `found`."""
    for number, at, record, answer_at, answer in pairs(job, answers, "arms"):
        if record.mark != "AR":
            found.others += 1
        elif answer.mark == "NO":
            found.refused += 1
        else:
            sigma, z = record.numbers.unpack_from(job, at + 2)[:2]
            found.add(number, sigma, z, tuple(answers[answer_at + 2:answer_at + 6]))


def table(found):
    """The counts as lines."""
    rows = [(str(arm), name, found.arm(arm)) for arm, name in ARMS.items()]
    rows.append(("", "  of these " + BY_SERIES[1], found.rules[CLOSED, 1]))
    rows += [("", "answered", found.answered), ("", "refused", found.refused)]
    width = max(len("records"), *(len(f"{n:,}") for _, _, n in rows))
    yield f"arm  {'rule':29}  {'records':>{width}}"
    for arm, name, n in rows:
        yield f"{arm:>3}  {name:29}  {n:>{width},}"


def write(path, text, inputs):
    """Writes the picture; never over one of the files that were read."""
    try:
        if any(os.path.exists(path) and os.path.samefile(path, given) for given in inputs):
            raise Failure(f"jobs: --svg {path} would overwrite what is read; expected another name")
        with open(path, "w", encoding="utf-8") as file:
            file.write(text)
    except OSError as error:
        raise Failure(f"jobs: cannot write {path}: {error.strerror}")


def arms(job_path, answer_path, svg_path):
    """The command: 0, or 1 where the files are no job and its answer by the limits, or 2."""
    job, answers, job_scan, answer_scan = load_both(job_path, answer_path)
    found = ArmRecords()
    fill(job, answers, found)
    out, faults = Lines(), list(problems(job_scan, answer_scan, found.wrong, "with bytes that are not the limits'"))
    out.add(*table(found))
    if found.others:
        out.add(f"{count(found.others, 'record')} of other marks")
    if svg_path:
        write(svg_path, picture(found, ARM_FROM, SERIES_BELOW, RULES, rule_text),
              [path for path in (job_path, answer_path) if path != "-"])
    out.add(*faults)
    out.flush()
    return 1 if faults else 0
