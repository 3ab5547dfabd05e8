"""tools/documents: what it must say of a page, and what it must leave alone."""
import importlib.machinery
import importlib.util
import pathlib
import tempfile

from .common import ROOT, holds, same

LOADER = importlib.machinery.SourceFileLoader("documents", str(ROOT / "tools" / "documents"))
# Names that do not exist are written in two parts: what stands in this file is code too.
WRONG = {"`sim3_" + "expp`": "no sim3_",
         "`series::no_such_" + "function`": "no no_such_",
         "`crates/series/specs/Nothing.antt`": "no crates/series/specs/Nothing.antt",
         "`tools/jobs show --nothing`": "knows no --nothing",
         "`tools/jobs frobnicate`": "no command frobnicate",
         "```sh\ntools/nothing < jobs.bin\n```": "no tools/nothing",
         "[a page](NOWHERE.md)": "leads nowhere",
         "[a part](#no-such-part)": "no part #no-such-part",
         "D999": "no D999",
         "word " * 25: "125 characters"}
RIGHT = ["`sim3_exp`", "`series::sim3::series_v`", "`crates/*/specs`", "`rt must-fail CRATE`",
         "`tools/jobs show --unusable`",
         "`Sim3Jac::inverse`", "```sh\ntools/jobs make examples/jobs.txt | ./sim3-job\n```",
         "# A title of `f64`\n[a part](#a-title-of-f64)", "| " + "word " * 30 + "|"]


def report_of(text):
    """What the tool says of a page with this text, and how many words it counts."""
    tool = importlib.util.module_from_spec(importlib.util.spec_from_loader("documents", LOADER))
    LOADER.exec_module(tool)
    with tempfile.TemporaryDirectory() as work:
        page = pathlib.Path(work, "PAGE.md")
        page.write_text(text)
        words = tool.check_page(page, {"D1"})
    return tool.wrong, words


def what_is_wrong():
    """Each wrong line by itself, on one page: a message for each."""
    found, _ = report_of("\n\n".join(WRONG))
    same(len(found), len(WRONG), f"messages: {found}")
    for message, expected in zip(found, WRONG.values()):
        holds(message, expected)


def what_is_right():
    same(report_of("\n\n".join(RIGHT) + "\nD1")[0], [], "messages")


def words_that_count():
    same(report_of("one | two - 3 <!-- generated: x -->\nfour\n<!-- end -->")[1], 3, "words")


TESTS = [what_is_wrong, what_is_right, words_that_count]
