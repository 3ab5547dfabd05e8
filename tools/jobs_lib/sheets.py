"""`jobs sheets`: which take of each sheet a job keeps, how often it was retaken, and what was refused."""
import csv
import itertools
import struct
import sys
from array import array

from .diff import spans
from .floats import DOUBLE
from .layout import JOB, MOST_RECORDS, MOST_SHEETS, NEW, OLDER, OUTCOMES, REFUSALS, REPLACES
from .pairs import load_both, pairs, problems
from .records import guess, load, name_of, older_format_message, scan, walk
from .terminal import Failure, Lines, Progress, count, say

SAME_TAKE, TOO_MANY, NEVER_KEPT = 10, 11, 12
NONE = -1  # the take of a refused SQ, which has none
POSE = struct.Struct("<8Q2H")
POSE_IN_JOB, POSE_IN_ANSWER = 6, 4  # where a pose begins in SH, and in SQ's answer
MOST_SPANS = 12  # of refused records, in a line
COLUMNS = ("sheet", "take", "record", "retaken", "older", "same", "asked")


class Sheet:
    """A kept sheet: its highest take, the record that brought it, and what else came of it."""

    def __init__(self, take, record, at):
        self.take, self.record, self.at = take, record, at
        self.retaken, self.older, self.same, self.asked = 0, 0, 0, 0


class KeptSheets:
    """The sheets kept after the records so far, by the rules of the format."""

    def __init__(self):
        self.sheets, self.others, self.wrong = {}, 0, []
        # The refused records: number, refusal, sheet and take of each.
        self.refused = array("I"), array("B"), array("H"), array("i")

    def refuse(self, record, refusal, sheet, take):
        for column, value in zip(self.refused, (record, refusal, sheet, take)):
            column.append(value)
        return b"NO" + bytes([refusal])

    def put(self, record, at, sheet, take):
        """SH: the expected answer."""
        kept = self.sheets.get(sheet)
        if kept is None:
            if len(self.sheets) == MOST_SHEETS:
                return self.refuse(record, TOO_MANY, sheet, take)
            self.sheets[sheet] = Sheet(take, record, at)
            return outcome(NEW, 0)
        before = kept.take
        if take == before:
            kept.same += 1
            return self.refuse(record, SAME_TAKE, sheet, take)
        if take < before:
            kept.older += 1
            return outcome(OLDER, before)
        kept.take, kept.record, kept.at = take, record, at
        kept.retaken += 1
        return outcome(REPLACES, before)

    def get(self, record, sheet):
        """SQ: the kept sheet, or None, and the expected answer up to the pose."""
        kept = self.sheets.get(sheet)
        if kept is None:
            return None, self.refuse(record, NEVER_KEPT, sheet, NONE)
        kept.asked += 1
        return kept, b"SQ" + struct.pack("<H", kept.take)

    def apply(self, record, job, at, layout):
        """Applies a record. Returns the expected answer up to the pose, and the sheet whose pose follows; None for both
        if the mark is another one."""
        if layout.mark == "SH":
            return self.put(record, at, *struct.unpack_from("<2H", job, at + 2)), None
        if layout.mark == "SQ":
            kept, expected = self.get(record, *struct.unpack_from("<H", job, at + 2))
            return expected, kept
        self.others += 1
        return None, None


def outcome(number, before):
    return b"SH" + struct.pack("<BH", number, before)


def same_pose(job, at, answers, answer_at):
    """Whether SQ's answer has the pose that the record at byte `at` brought; a NaN is any NaN."""
    sent, answered = POSE.unpack_from(job, at + POSE_IN_JOB), POSE.unpack_from(answers, answer_at + POSE_IN_ANSWER)
    nans = (i < 8 and DOUBLE.is_nan(a) and DOUBLE.is_nan(b) for i, (a, b) in enumerate(zip(sent, answered)))
    return all(nan or a == b for nan, a, b in zip(nans, sent, answered))


def in_words(head):
    """The beginning of an answer, for a message."""
    mark, rest = head[:2].decode("latin-1"), head[2:]
    if mark == "SH":
        number, before = struct.unpack("<BH", rest)
        return f"SH {number} ({OUTCOMES.get(number, 'a number that no outcome has')}), before {before}"
    if mark == "NO":
        return f"NO {rest[0]} ({REFUSALS.get(rest[0], 'a number that no refusal has')})"
    return f"{mark} take {struct.unpack('<H', rest)[0]}"


def follow_both(job, answers):
    """Follows the records of a job and compares the expected answers with the file's."""
    found = KeptSheets()
    for number, at, record, answer_at, answer in pairs(job, answers, "sheets"):
        expected, kept = found.apply(number, job, at, record)
        if expected is None:
            continue
        answer_head = bytes(answers[answer_at:answer_at + min(answer.size, 4 if answer.mark == "SQ" else 5)])
        if answer_head != expected:
            found.wrong.append(f"record {number}  {record.mark}  told {in_words(answer_head)}; the records before it "
                               "give "
                               f"{in_words(expected)}")
        elif kept and not same_pose(job, kept.at, answers, answer_at):
            found.wrong.append(f"record {number}  SQ  told another pose than that of record {kept.record}, which "
                               "brought the take")
    return found


def follow(job, total):
    """Follows the records of a job without answers, as many as the program answers."""
    found, progress = KeptSheets(), Progress("sheets", total)
    for number, (at, record) in enumerate(itertools.islice(walk(job, JOB), MOST_RECORDS), 1):
        found.apply(number, job, at, record)
        progress(number)
    progress.end()
    return found


def rows(found):
    """The kept sheets by their numbers, in the order of COLUMNS."""
    for sheet, kept in sorted(found.sheets.items()):
        yield sheet, kept.take, kept.record, kept.retaken, kept.older, kept.same, kept.asked


def lines(found):
    """The kept sheets as a table, and what was refused."""
    table = [COLUMNS, *(tuple(f"{value:,}" if i > 1 else str(value) for i, value in enumerate(row))
                        for row in rows(found))]
    widths = [max(map(len, column)) for column in zip(*table)]
    if found.sheets:
        yield from ("  ".join(f"{word:>{width}}" for word, width in zip(row, widths)) for row in table)
    again = [kept.retaken for kept in found.sheets.values() if kept.retaken]
    room = MOST_SHEETS - len(found.sheets)
    yield f"{count(len(found.sheets), 'sheet')} kept, " \
          f"{f'room for {room:,} more' if room else 'no room for another'}; " \
          f"{len(again):,} retaken, {count(sum(again), 'time')} in all"
    for refusal in (SAME_TAKE, TOO_MANY, NEVER_KEPT):
        numbers = [number for number, why in zip(*found.refused[:2]) if why == refusal]
        if numbers:
            yield f"refused by {refusal} ({REFUSALS[refusal]}): {count(len(numbers), 'record')}, " \
                  f"number{'s' if len(numbers) > 1 else ''} {spans(numbers, MOST_SPANS, 'jobs sheets --csv')}"
    if found.others:
        yield f"{count(found.others, 'record')} of other marks"


def write_csv(found):
    """A row for each kept sheet, then one for each refused record."""
    out = csv.writer(sys.stdout, lineterminator="\n")
    out.writerow(("what", *COLUMNS, "refusal"))
    out.writerows(("kept", *row, "") for row in rows(found))
    for number, refusal, sheet, take in zip(*found.refused):
        out.writerow(("refused", sheet, "" if take == NONE else take, number, "", "", "", "", refusal))
    sys.stdout.flush()


def job_alone(path):
    """A job file without answers: what is kept by its records, and what is damaged in it."""
    job = load(path)
    job_scan = scan(job, JOB, "reading")
    if job_scan.damages and older_format_message(job):
        raise Failure(f"jobs: {name_of(path)}: {older_format_message(job)}")
    if job_scan.damages and len(job) and guess(job) is not JOB:
        raise Failure(f"jobs: {name_of(path)} is an answer file; expected JOBS, then ANSWERS if they are there")
    return follow(job, job_scan.records), [f"JOBS: byte {damage.at}: {damage.text}" for damage in job_scan.damages]


def sheets(job_path, answer_path, as_csv):
    """The command: 0, or 1 where the answers are others, or a file is damaged or cut, or 2."""
    if answer_path is None:
        found, faults = job_alone(job_path)
    else:
        job, answers, job_scan, answer_scan = load_both(job_path, answer_path)
        found = follow_both(job, answers)
        faults = list(problems(job_scan, answer_scan, found.wrong,
                               "with answers that are not those of the kept sheets"))
    if as_csv:
        write_csv(found)
        for problem in faults:
            say(f"jobs: {problem}")
    else:
        out = Lines()
        out.add(*lines(found), *faults)
        out.flush()
    return 1 if faults else 0
