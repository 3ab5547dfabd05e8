"""The bounds of sim3.accuracy against the numbers that the checker computes, and the rows' against the statements."""
import importlib.util
import pathlib
import re

from . import jacobians, rows

TOP = pathlib.Path(__file__).resolve().parent.parent.parent
SPECS = [TOP / "crates/accuracy/specs/Numbers.antt", TOP / "crates/running_accuracy/specs/Numbers.antt"]
JOINS = 10


def load_binding():
    """sim3.accuracy by itself: it needs no library."""
    found = importlib.util.spec_from_file_location("accuracy", TOP / "bindings/python/sim3/accuracy.py")
    made = importlib.util.module_from_spec(found)
    found.loader.exec_module(made)
    return made


def numbers_of_specs():
    """name -> number, of the fields `pub NAME : .. ≡ NUMBER` of the specs."""
    found = {}
    for path in SPECS:
        text = path.read_text(encoding="utf-8")
        for name, number in re.findall(r"^ +pub ([a-z_-]+) :[^≡]*≡\s*([0-9]+)$", text, re.M):
            found[name.replace("_", "-")] = int(number)
    return found


def numbers_of_binding(accuracy):
    """The same numbers as the binding has them."""
    found, units = {}, accuracy.UNIT
    for width, kind in ((64, "doubles"), (32, "singles")):
        found[f"action-{kind}"] = accuracy.action(2 ** 16, 16, 2 ** 20, width=width) * units
        found[f"unit-action-{kind}"] = accuracy.action(1, 1, 1, width=width) * units
        found[f"product-{kind}"] = accuracy.product(width=width) * units
        found[f"renormalized-{kind}"] = accuracy.renormalized(width=width) * units
        found[f"inverse-{kind}"] = accuracy.inverse(2 ** 20, 16, width=width) * units
        found[f"exponential-{kind}"] = accuracy.rounded_exponential(2 ** 16, width).error
        found[f"unit-exponential-{kind}"] = accuracy.rounded_exponential(1, width).error
    one, near, square = 2 ** 100, 2 ** 100 + 2 ** 60, 2 ** 61 + 2 ** 21
    boxes = {  # box_doubles, box_singles and page_box of crates/running_accuracy/specs/Running.antt
        "doubles": (64, (near, square, 2 ** 110, 2 ** 101, 2 ** 48, one + 2 ** 77, 2 ** 61 + 2 ** 50, 65535)),
        "singles": (32, (one + 2 ** 80, 2 ** 81 + 2 ** 61, 2 ** 110, 2 ** 101, 2 ** 77, one + 2 ** 85,
                         2 ** 81 + 2 ** 75, 16)),
        "page": (64, (near, square, 2 ** 116, 2 ** 102, 2 ** 50, one + 2 ** 65, 2 ** 61 + 2 ** 40, 16))}
    for kind, (width, box) in boxes.items():
        state = accuracy.Joins(width, accuracy.JoinBox(*box))
        for _ in range(JOINS):
            state.join()
        found[f"rotation-{kind}"], found[f"translation-{kind}"] = state.rotation, state.translation.error
    return found


def corollary_errors(accuracy):
    """Whether the binding's bound of each corollary's box is at most the corollary's, and more than half of it."""
    log = {"RunningTheorem.doubles": (accuracy.running(1000, 65_535, 2 ** 10, 2, 2.0 ** -52), (-37, -14)),
           "RunningTheorem.singles": (accuracy.running(100, 16, 2 ** 10, 2, 2.0 ** -23, width=32), (-11, 8)),
           "RunningTheorem.page_hundred": ((accuracy.page(100, 16, 2 ** 16, 2 ** 16, 4, 2.0 ** -50),), (-14,)),
           "RunningTheorem.page_thousand": ((accuracy.page(1000, 16, 2 ** 16, 2 ** 16, 4, 2.0 ** -50),), (-7,))}
    for width, kind, near, exponents in ((64, "doubles", 2.0 ** -50, (-26, -46, -22, -47, -27, -43)),
                                         (32, "singles", 2.0 ** -21, (3, -17, 7, -18, 2, -14))):
        big, one, translation, norm, page, small = exponents
        boxes = (("", (2 ** 16, 16, 2 ** 20), big), ("unit_", (1, 1, 1), one))
        for unit, box, exponent in boxes:
            log[f"RotationTheorem.{unit}{kind}"] = ((accuracy.action(*box, width=width, square=near),), (exponent,))
            log[f"ManyPointsTheorem.{unit}{kind}"] = ((accuracy.action_by_matrix(*box, width=width),), (exponent,))
        log[f"RotationTheorem.inverse_{kind}"] = ((accuracy.inverse(2 ** 20, 16, width=width, square=near),),
                                                  (translation,))
        log[f"NormTheorem.{kind}"] = ((accuracy.norm_sq(2.5, width=width),), (norm,))
        for field, rho, exponent in (("page", 2 ** 16, page), ("unit", 1, small)):
            log[f"ExponentialTheorem.{field}_{kind}"] = ((accuracy.exponential(rho, width=width),), (exponent,))
    log["SigmaTheorem.doubles"] = ((accuracy.sigma(1000, 2),), (-42,))
    log["SigmaTheorem.singles"] = ((accuracy.sigma(100, 2, width=32),), (-16,))
    log["ScaleTheorem.hundred"] = ((accuracy.scale_of_joins(100, 1.5),), (-42,))
    log["ScaleTheorem.thousand"] = ((accuracy.scale_of_joins(1000, 1.5),), (-39,))
    log["ScaleTheorem.singles"] = ((accuracy.scale_of_joins(100, 1.5, width=32),), (-13,))
    for joins, name, exponent, close in ((100, "hundred", -8, -13), (1000, "thousand", -5, -7)):
        box = (joins, 16, 2 ** 16, 2 ** 16, 4)
        log[f"SimilarityTheorem.page_{name}"] = ((accuracy.similarity(*box, 2.0 ** -50),), (exponent,))
        log[f"SimilarityTheorem.close_{name}"] = ((accuracy.similarity(*box, 2.0 ** -42, 1 + 2.0 ** -50),), (close,))
    for name, (bounds, exponents) in log.items():
        for bound, exponent in zip(bounds, exponents, strict=True):
            if not 2.0 ** (exponent - 1) < bound <= 2.0 ** exponent:
                yield f"{name}: the binding's bound {float(bound)} is not the corollary's 2^{exponent}"


def closed_errors():
    """Whether the exponents of the closed arm's rows are those of specs/ClosedArm.antt."""
    text = (TOP / "crates/accuracy/specs/ClosedArm.antt").read_text(encoding="utf-8")
    for width in (32, 64):
        for box in rows.BOXES:
            body = re.search(rf"^{box}_errors binary{width} =\n(.*)$", text, re.M).group(1)
            chi = re.search(rf"^{box}_chi binary{width} = (.*)$", text, re.M).group(1)
            expected = tuple(int(x) - 100 for x in re.findall(r"2 \^ (\d+)", body + chi))
            if expected != rows.CLOSED[width][box]:
                yield (f"the closed arm, {box}, at {width} bits is {rows.CLOSED[width][box]}, and the statement has "
                       f"{expected}")


def block_errors():
    """Whether the exponents of the Jacobians' rows are those of specs/Blocks.antt and specs/InverseBlocks.antt."""
    folder = TOP / "crates/error_bounds/specs"
    text, near = ((folder / name).read_text(encoding="utf-8") for name in ("Blocks.antt", "InverseBlocks.antt"))
    for width, field in ((64, "unit_doubles"), (32, "unit_singles")):
        box = re.search(rf"pub {field} : .*\n +LeftJacobianIn binary{width} ((?:\(2 \^ \d+\) )+)", text).group(1)
        expected = tuple(int(x) - 100 for x in re.findall(r"\^ (\d+)", box)[1:])
        if expected != jacobians.BLOCKS[width]:
            yield f"the left Jacobian at {width} bits is {jacobians.BLOCKS[width]}, and the statement has {expected}"
        expected = tuple(int(re.search(rf"^near_{block}_error binary{width} = 2 \^ (\d+)$", near, re.M).group(1)) - 100
                         for block in "bvf")
        if expected != jacobians.INVERSE_BLOCKS[width]:
            yield f"its inverse at {width} bits is {jacobians.INVERSE_BLOCKS[width]}, and the statement has {expected}"


def exponent_errors():
    """Whether the exponents of the coefficients' rows are those of specs/Series.antt."""
    text = (TOP / "crates/accuracy/specs/Series.antt").read_text(encoding="utf-8")
    for width in (32, 64):
        chi = re.search(rf"^chi_errors binary{width} arm = (.*)$", text, re.M).group(1)
        last = [int(x) for x in re.findall(r"\(2 \^ (\d+)\)", chi)]
        for arm, name in enumerate(rows.ARMS):
            body = re.search(rf"^{name}_errors binary{width} =\n(.*)$", text, re.M).group(1)
            expected = tuple(int(x) - 100 for x in [*re.findall(r"2 \^ (\d+)", body), last[arm]])
            if expected != rows.COEFFICIENTS[width][name]:
                yield (f"the {name} arm at {width} bits is {rows.COEFFICIENTS[width][name]}, and the statement has "
                       f"{expected}")


def agree():
    """Whether all of it agrees; each difference is a line."""
    accuracy = load_binding()
    expected, found = numbers_of_specs(), numbers_of_binding(accuracy)
    wrong = [*exponent_errors(), *closed_errors(), *block_errors(), *corollary_errors(accuracy)]
    wrong += [f"{name} is {found.get(name)} in the binding and {expected.get(name)} in the specs"
              for name in sorted({*expected, *found}) if expected.get(name) != found.get(name)]
    for line in wrong:
        print(f"accuracy: FAILED: {line}")
    return not wrong
