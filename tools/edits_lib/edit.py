"""A must-fail edit: what its file says, whether it fits the code, and the crate's text with it."""
import pathlib
import re

top = pathlib.Path(__file__).resolve().parent.parent.parent
# the paper, or the request, and the words that the edit breaks; or a statement of docs/ACCURACY.md, and what it says
GUARDS = re.compile(r"(01|02, K\d+|ACCURACY, (?P<statement>\w+)): \S.*\S")


class Edit:
    """One file: a comment that says what is wrong with the edit, what it guards, and its replacements."""

    def __init__(self, path, crate):
        self.path, self.crate, self.label = path, crate, path.stem
        self.comment, self.guards, self.pairs = "", "", []
        file = old = ""
        for line in path.read_text(encoding="utf-8").splitlines():  # the lines that rt reads, as it reads them
            key, _, rest = line.partition(":")
            if line.startswith("#"):
                self.comment = self.comment or line[1:].strip()
            elif key == "guards":
                self.guards = rest.strip()
            elif line.startswith("file: "):
                file = line[6:]
            elif line.startswith("old: "):
                old = line[5:]
            elif key == "new":
                self.pairs.append((file, old, rest.removeprefix(" ")))
                old = ""

    @property
    def name(self):
        return f"{self.crate}/{self.label}"

    def edited(self):
        """The crate's files with the edit: path -> text. A ValueError says where it does not fit."""
        texts = {}
        if not self.pairs:
            raise ValueError("it has no 'old:' and 'new:' pair")
        for file, old, new in self.pairs:
            source = top / "crates" / self.crate / file
            if not file.startswith(("src/", "specs/")) or ".." in file or not source.is_file():
                raise ValueError(f"'{file}' is no file of src/ or specs/ of its crate")
            text = texts.get(file) or source.read_text(encoding="utf-8")
            count = text.count(old) if old else 0
            if count != 1:
                raise ValueError(f"its old text stands {count} times in {file}: give a text that stands there once")
            texts[file] = text.replace(old, new)
        if all(text == (top / "crates" / self.crate / file).read_text(encoding="utf-8")
               for file, text in texts.items()):
            raise ValueError("it changes nothing")
        return texts


def edits():
    """The edits of every crate."""
    return [Edit(path, path.relative_to(top).parts[1]) for path in sorted(top.glob("crates/*/must-fail/*.edit"))]


def stray_files():
    """The files of crates/NAME/must-fail that rt takes for no edit, and that are not only to be read."""
    allowed = set(top.glob("crates/*/must-fail/*.edit")) | set(top.glob("crates/*/must-fail/*.md"))
    return sorted(path for path in top.glob("crates/*/must-fail/**/*") if path.is_file() and path not in allowed)
