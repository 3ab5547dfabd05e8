"""A job file and the answers to it, read together."""
from .layout import ANSWER, JOB, MOST_RECORDS
from .records import guess, load, older_format_message, scan, walk
from .terminal import Failure, Progress, count

MOST_MESSAGES = 20


def load_both(job_path, answer_path):
    """Both files and their scans; a file of the other kind is named."""
    if job_path == answer_path == "-":
        raise Failure("jobs: JOBS and ANSWERS are both standard input; expected two files")
    job, answers = load(job_path), load(answer_path)
    job_scan, answer_scan = scan(job, JOB, "reading"), scan(answers, ANSWER, "reading")
    for path, data, found, table_of, what in ((job_path, job, job_scan, JOB, "a job file"),
                                              (answer_path, answers, answer_scan, ANSWER, "an answer file")):
        if found.damages and older_format_message(data):
            raise Failure(f"jobs: {path}: {older_format_message(data)}")
        if found.damages and len(data) and guess(data) is not table_of:
            raise Failure(f"jobs: {path} is not {what}; expected JOBS, then ANSWERS")
    return job, answers, job_scan, answer_scan


def pairs(job, answers, what):
    """Each record with its answer: its number from 1, and byte and layout of both."""
    progress = Progress(what, 0)
    both = zip(walk(job, JOB), walk(answers, ANSWER))
    for number, ((at, record), (answer_at, answer)) in enumerate(both, 1):
        if answer.mark not in (record.mark, "NO"):
            raise Failure(f"jobs: record {number:,} is {record.mark} in JOBS and {answer.mark} in "
                          "ANSWERS; expected a job file and the answers to it")
        yield number, at, record, answer_at, answer
        progress(number)
    progress.end()


def problems(job_scan, answer_scan, wrong, more):
    """What keeps the two files from being a job and its whole answer; `wrong` has messages about
    records, of which the first are given, and `more` says what the others are."""
    for damage in answer_scan.damages:
        yield f"ANSWERS: byte {damage.at}: {damage.text}"
    expected = min(job_scan.records + bool(job_scan.damages), MOST_RECORDS)
    if answer_scan.records != expected:
        yield f"JOBS has {count(expected, 'record')} to be answered, ANSWERS has {answer_scan.records:,}"
    yield from wrong[:MOST_MESSAGES]
    if len(wrong) > MOST_MESSAGES:
        yield f"{len(wrong) - MOST_MESSAGES:,} more records {more}"
