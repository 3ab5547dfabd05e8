"""Rust: the installed crate's own tests, documentation and example, and a crate that depends on it."""
import functools

from .common import LAST_LINE, ROOT, folder, prefix, run, same, tool

MAIN = """\
use sim3::{host, Tangent};

fn main() -> Result<(), Box<dyn std::error::Error>> {
    let turn = Tangent([0.0, 0.0, 0.0, 1.0, 2.0, 3.0, 0.0]);
    let x = sim3::exp(&turn, &host::tangent_values(&turn), 3, 7);
    println!("{} {:?} {} {}", sim3::version(), &x.numbers[4..7], x.from, x.to);
    Ok(())
}
"""


@functools.lru_cache(maxsize=None)
def target():
    return folder("cargo")


def cargo(*words, cwd, **variables):
    tool("cc")  # by which rustc links
    return run([tool("cargo"), *words, "--offline", "--quiet"], cwd, CARGO_TARGET_DIR=target(), **variables)


def own_tests():
    output = cargo("test", cwd=prefix() / "share/sim3/rust")
    assert output.count("test result: ok") >= 3, output


def own_example():
    assert LAST_LINE in cargo("run", "--example", "join", cwd=prefix() / "share/sim3/rust")


def example_is_the_same():
    """cargo wants it in the crate, and rt takes no tree with a link in it."""
    files = [ROOT / place / "join.rs" for place in ("bindings/rust/examples", "examples/rust")]
    same(*(file.read_text(encoding="utf-8") for file in files), "the crate's example and that of examples/rust")


def documentation():
    cargo("doc", "--no-deps", cwd=prefix() / "share/sim3/rust", RUSTDOCFLAGS="-D warnings")


def dependent():
    work = folder("dependent")
    (work / "src").mkdir()
    (work / "src/main.rs").write_text(MAIN)
    (work / "Cargo.toml").write_text('[package]\nname = "mine"\nversion = "0.1.0"\nedition = "2021"\n\n'
                                     f'[dependencies]\nsim3 = {{ path = "{prefix()}/share/sim3/rust" }}\n')
    version = (prefix() / "lib/pkgconfig/sim3.pc").read_text().split("Version: ")[1].split()[0]
    same(cargo("run", cwd=work), f"{version} [1.0, 2.0, 3.0] 3 7\n", "what a crate that depends on sim3 says")


TESTS = [own_tests, own_example, example_is_the_same, documentation, dependent]
