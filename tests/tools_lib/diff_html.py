"""`jobs diff --html`: the page has every difference with both values, distance and inputs, and nothing from
elsewhere."""
import html.parser
import pathlib
import shutil
import subprocess

from .common import (ANSWER, DOUBLES, JOB, ONE, SINGLES, WORK, answers, answers_with, ended, file, holds, jobs,
                     records, same)


class Reader(html.parser.HTMLParser):
    """The tags of a page that are open, the places that it names, and its text by tag."""

    def __init__(self):
        super().__init__()
        self.open, self.links, self.texts, self.records = [], [], [], []

    def handle_starttag(self, tag, attrs):
        attrs = dict(attrs)
        self.links += [attrs[name] for name in ("src", "href", "action") if name in attrs]
        if tag == "details":
            self.records.append(attrs)
        if tag not in ("meta", "input", "br"):
            self.open.append(tag)

    def handle_endtag(self, tag):
        same(self.open.pop(), tag, "the tag that ends")

    def handle_data(self, data):
        self.texts.append(data)


def page(*words, status=1):
    """The page that is written, read."""
    path = pathlib.Path(WORK.name, "page.html")
    jobs("diff", "--html", path, *words, status=status)
    reader = Reader()
    reader.feed(path.read_text(encoding="utf-8"))
    same(reader.open, [], "tags that are not ended")
    same(reader.links, [], "places that the page names")
    return reader, " ".join(reader.texts)


def each_difference():
    """Both values, the distance and the inputs of a record stand there; so does the summary."""
    job = file("jobs.bin", records(JOB, 3, len(DOUBLES) + 1, DOUBLES))
    reader, text = page("--job", job, file("old.bin", answers_with("AC", "point.y", ONE)),
                        file("new.bin", answers_with("AC", "point.y", ONE + 1)))
    same([(found["data-mark"], found["data-record"], found["data-ulps"]) for found in reader.records],
         [("AC", "4", "1")], "records of the page")
    holds(text, "record 4", "point.y", "1.0", "1.0000000000000002", "1 ulp", "different: 1 record (AC 1), 1 number",
          "pose.q ", "inputs: ")
    _, text = page(file("old.bin", answers_with("ac", "point.y", 0x3F800001)), file("new.bin", answers(SINGLES)))
    holds(text, "The records' inputs are not shown: --job JOBS gives them.")


def other_answers():
    """A refusal against an answer, and counts that differ."""
    old, new = ended(b"NO\1RN\1\0", 1), ended(b"RN\2\0RN\1\0")
    reader, text = page(file("old.bin", old), file("new.bin", new))
    holds(text, "NO 1 (squared angle z below zero)", "another answer", "ZZ", "refused")
    same(len(reader.records), 1, "records of the page")


def nothing_differs():
    reader, text = page(file("old.bin", answers()), file("new.bin", answers()), status=0)
    same(reader.records, [], "records of the page")
    holds(text, "No record differs.", "equal: ")


def many():
    """Thousands of differences, whatever the limit of the lines."""
    old = records(ANSWER, 5, 4000, [b"AC"])
    new = bytearray(old)
    for at in range(10, len(new), ANSWER[b"AC"].size):
        new[at - 6] ^= 1
    reader, text = page("--limit", "3", file("old.bin", ended(old)), file("new.bin", ended(bytes(new))))
    assert len(reader.records) > 3000, f"{len(reader.records)} records in the page"
    assert "not printed" not in text, "the page says that something is not printed"


def in_a_browser():
    """Headless Chromium runs the page's script, which counts the records that are shown; without Chromium nothing is
    tried."""
    browser = shutil.which("chromium") or shutil.which("chromium-browser")
    if not browser:
        return
    page(file("old.bin", answers_with("AC", "point.y", ONE)), file("new.bin", answers_with("AC", "point.y", ONE + 1)))
    done = subprocess.run([browser, "--headless", "--no-sandbox", "--disable-gpu",
                           f"--user-data-dir={WORK.name}/browser", "--dump-dom", f"file://{WORK.name}/page.html"],
                          stdout=subprocess.PIPE, stderr=subprocess.DEVNULL, text=True, timeout=300)
    holds(done.stdout, '<span id="left">1 of 1 records</span>')


def what_is_refused():
    old, new = file("old.bin", answers()), file("new.bin", answers())
    holds(jobs("diff", "--job", old, old, new, status=2)[1], "--job with --html")
    holds(jobs("diff", "--html", "page.html", "--by-tangent", old, new, old, new, status=2)[1],
          "expected neither with --by-tangent")
    holds(jobs("diff", "--html", f"{WORK.name}/none/page.html", old, new, status=2)[1], "cannot be written")
    holds(jobs("diff", "--html", f"{WORK.name}/page.html", "--job", old, old, new, status=2)[1], "is not a job file")


TESTS = [each_difference, other_answers, nothing_differs, many, in_a_browser, what_is_refused]
