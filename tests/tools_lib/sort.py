"""`jobs sort` and `jobs diff --by-tangent`."""
import random
import struct

from .common import file, holds, jobs, program, same, with_program
from jobs_lib.layout import JOB
from order_lib.exact import compare
from order_lib.samples import tangents

AC = JOB[b"AC"]


def record(mark, words, fill):
    """A record of EX or PA with this tangent, and one number in all other places."""
    layout = JOB[mark]
    rest = [fill if code != "d" else 0x3FF0_0000_0000_0000 + fill for code in layout.codes[7:]]
    return mark + layout.bits.pack(*words, *rest)


def mixed_records(count, seed="jobs"):
    """Records of EX and PA with AC records between them."""
    draw = random.Random(seed)
    found = []
    for i, words in enumerate(tangents(draw, count)):
        found.append(record(draw.choice((b"EX", b"PA")), words, i % 3))
        if i % 5 == 0:
            found.append(b"AC" + AC.numbers.pack(*([1.0] * 8), 0, 0, 2.0, float(i), 0.0, 0.0))
    return found


def tangent_of(one):
    return struct.unpack_from("<7Q", one, 2)


def parts(data):
    """The records of a job file, one by one."""
    found, at = [], 0
    while at < len(data):
        size = JOB[data[at:at + 2]].size
        found.append(data[at:at + size])
        at += size
    return found


def sorted_by(data):
    text, messages = jobs("sort", file("job", data), status=0)
    same(messages, "", "messages")
    return text


def in_order():
    """The tangents rise, the records are the same ones, and those without a tangent keep their places; another order of
    the shots gives the same file."""
    found = mixed_records(60)
    once = sorted_by(b"".join(found))
    after = parts(once)
    same(sorted(after), sorted(found), "the records")
    for i, (old, new) in enumerate(zip(found, after)):
        assert (old[:2] == b"AC") == (new[:2] == b"AC") and (old[:2] != b"AC" or old == new), (
            f"record {i + 1} left its place")
    shots = [one for one in after if one[:2] != b"AC"]
    for a, b in zip(shots, shots[1:]):
        assert compare(tangent_of(a), tangent_of(b)) <= 0, "two records stand in the wrong order"
    same(sorted_by(once), once, "sorted twice")
    others = [one for one in found if one[:2] != b"AC"]
    random.Random(3).shuffle(others)
    rest = iter(others)
    same(sorted_by(b"".join(one if one[:2] == b"AC" else next(rest) for one in found)), once,
         "sorted from another order")
    same(sorted_by(b""), b"", "an empty job")


def damaged():
    for data, part in ((b"EX1234", "inside a record"), (b"QQ", "unknown mark"),
                       (mixed_records(3)[0] + b"E", "inside a mark")):
        text, messages = jobs("sort", file("job", data), status=2)
        same(text, b"", "output")
        holds(messages, part, "expected a whole job file")


@with_program
def pulls():
    """The same shots in another order are equally answered; a lost shot, and another one, are named."""
    found = mixed_records(40)
    other = found[:]
    random.Random(4).shuffle(other)
    other = [one for one in other if one[:2] != b"AC"] + [one for one in found if one[:2] == b"AC"]

    def against(first, second, status):
        paths = []
        for name, some in (("old", first), ("new", second)):
            data = b"".join(some)
            paths += [file(name, data), file(name + "-answers", program(data))]
        text, messages = jobs("diff", "--by-tangent", *paths, status=status)
        same(messages, "", "messages")
        return text.decode()

    same(against(found, other, 0), f"in both: {len(found)} records, equally answered\n", "the same shots")
    lost = found.index(next(one for one in found if found.count(one) == 1 and one[:2] == b"EX"))
    text = against(found, other[:other.index(found[lost])] + other[other.index(found[lost]) + 1:], 1)
    holds(text, f"record {lost + 1}  in OLD alone\n", f"in both: {len(found) - 1} records\n")


@with_program
def another_answer():
    """A number that differs is reported with the record's number in both files, and so is a job without its own
    answers."""
    first, second = record(b"EX", [0x3FF0_0000_0000_0000] * 7, 0), record(b"EX", [0x4000_0000_0000_0000] * 7, 0)
    answers = bytearray(program(second + first))
    answers[2 + 8 * 7] ^= 1  # the last bit of sigma in the first answer
    old = [file("old", first + second), file("old-answers", program(first + second))]
    new = [file("new", second + first), file("new-answers", bytes(answers))]
    text, _ = jobs("diff", "--by-tangent", *old, *new, status=1)
    holds(text.decode(), "record 2/1  EX  pose.sigma  2.0  ->  2.0000000000000004  1 ulp\n", "in both: 2 records\n")
    text, _ = jobs("diff", "--by-tangent", "--limit", "0", *old, *new, status=1)
    holds(text.decode(), "1 more difference not printed\n")
    _, messages = jobs("diff", "--by-tangent", *old, new[0], file("short", program(first)), status=2)
    holds(messages, "is not the answer to")


def counts_of_files():
    for words in (("diff", "a", "b", "c"), ("diff", "--by-tangent", "a", "b")):
        _, messages = jobs(*words, status=2)
        holds(messages, "expected")


TESTS = [in_order, damaged, pulls, another_answer, counts_of_files]
