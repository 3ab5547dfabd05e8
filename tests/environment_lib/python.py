"""From Python: every kind of call in each setting, with traps, inside the guard, and what was not written."""
import array
import pickle
import threading

from bindings_lib.common import same
from .common import PROVED, SETTINGS, TRAPS
import sim3
from sim3 import raw

X = sim3.Pose([1, 0, 0, 0, 0, 0, 0, 0], 1, 1)
Y = sim3.Pose(array.array("d", [0.6, 0, 0.8, 0, 0.1, 0.2, 0.3, 0.1]), 1, 1)
TAU = [0.1, 0.2, 0.3, 1, 2, 3, 0.5]
DENORMAL = array.array("d", [5e-324, 1e-310, 1.0])


def sheet():
    sheets = sim3.Sheets()
    return sheets.put(1, 1, Y), sheets.get(1)


# One call of each kind, of the table's functions, in place, over points, and of what stands apart from the table.
CALLS = {
    "exp": lambda: sim3.exp(TAU, 1, 1),
    "mul": lambda: sim3.mul(Y, Y),
    "renormalize": lambda: sim3.renormalize(Y),
    "act_each": lambda: sim3.act_each(X, DENORMAL, 1.0),
    "act_many": lambda: sim3.act_many(Y, [0.1, 0.2, 0.3]),
    "block_pair": lambda: sim3.block_pair(TAU),
    "adjoint": lambda: sim3.adjoint(Y),
    "root": lambda: sim3.root(2.0),
    "nearest_arm": lambda: sim3.nearest_arm(0.1, 0.2),
    "sort_tangents": lambda: sim3.sort_tangents(TAU),
    "renormalize_all": lambda: sim3.renormalize_all([Y]),
    "Running": lambda: sim3.Running().push(Y),
    "Sheets": sheet,
    "f32.exp": lambda: sim3.f32.exp(TAU, 1, 1),
    "f32.act_each": lambda: sim3.f32.act_each(X, [0.1, 0.2, 0.3], 4.75),
    "f32.adjoint": lambda: sim3.f32.adjoint(Y),
}


def set_mxcsr(csr):
    """Sets all of MXCSR."""
    raw.library()["environment_leave"](csr)


def at_setting(csr, call):
    """What a call gives in a setting, or the exception."""
    set_mxcsr(csr)
    try:
        return call()
    except sim3.OtherEnvironment as error:
        return error
    finally:
        set_mxcsr(PROVED)


def guarded(call):
    with sim3.environment():
        return call()


def every_call_asks():
    expected = {name: repr(call()) for name, call in CALLS.items()}
    for csr in SETTINGS:
        for name, call in CALLS.items():
            found, inside = at_setting(csr, call), at_setting(csr, lambda: guarded(call))
            if csr == PROVED:
                same(repr(found), expected[name], name)
            else:
                assert isinstance(found, sim3.OtherEnvironment) and found.mxcsr == csr, (
                    f"{name} at {csr:04x}: {found!r}")
                assert str(found).startswith(f"sim3.{name}") and f"{csr:04x}" in str(found), found
            same(repr(inside), expected[name], f"{name} at {csr:04x} inside the guard")


def traps():
    """The interpreter's own arithmetic may trap too, so a call that needs none of it."""
    expected = sim3.act_each(X, DENORMAL, 1.0)
    for csr in TRAPS:
        found = at_setting(csr, CALLS["act_each"])
        assert isinstance(found, sim3.OtherEnvironment) and found.mxcsr == csr and "traps" in str(found), (
            f"{csr:04x}: {found!r}")
        same(at_setting(csr, lambda: guarded(CALLS["act_each"])), expected, f"{csr:04x} inside the guard")


def the_host_is_asked_after():
    """Where the values are left out, the host does not compute them in another environment: at this sigma its
    exponential would trap."""
    far = sim3.Pose(array.array("d", [1, 0, 0, 0, 0, 0, 0, 1000.0]), 1, 1)
    for call in (lambda: sim3.mul(far, far), lambda: sim3.adjoint(far),
                 lambda: sim3.exp(array.array("d", [0, 0, 0, 0, 0, 0, 1000.0]), 1, 1)):
        found = at_setting(PROVED & ~0x0400, call)
        assert isinstance(found, sim3.OtherEnvironment) and "traps overflow" in str(found), found


def the_probe():
    numbers = (raw.ctypes.c_double * 3)(4.75, 5e-324, 8.988465674311582e307)
    for csr in SETTINGS:
        same(at_setting(csr, lambda: raw.library()["environment"](numbers, 3)), int(csr == PROVED),
             f"the probe at {csr:04x}")


def the_exception():
    error = at_setting(0x9FC0 | 0x6000, CALLS["act_each"])
    assert isinstance(error, FloatingPointError) and not isinstance(error, sim3.Refusal), type(error).__mro__
    for part in ("sim3.act_each: this thread rounds toward zero, flushes denormal results to zero, reads denormal "
                 "numbers as zero",
                 "MXCSR is ffc0", "1f80", "-ffast-math", "with sim3.environment():"):
        assert part in str(error), f"{part!r} is not in {error}"
    assert "fesetround" in str(at_setting(PROVED | 0x4000, CALLS["mul"]))
    assert "feenableexcept" in str(at_setting(PROVED & ~0x0200, CALLS["mul"]))
    again = pickle.loads(pickle.dumps(error))
    same((again.mxcsr, str(again)), (0xFFC0, str(error)), "the exception from another process")


def nothing_is_written():
    out, running, sheets = array.array("d", [7.0] * 3), sim3.Running(), sim3.Sheets()
    running.push(Y)
    sheets.put(1, 1, Y)
    before = repr(running), sheets.get(1)
    for call in (lambda: sim3.act_each(X, DENORMAL, 1.0, out=out), lambda: running.push(Y), lambda: running.every(1),
                 lambda: sheets.put(1, 2, X)):
        assert isinstance(at_setting(0x9FC0, call), sim3.OtherEnvironment)
    same((out.tolist(), repr(running), sheets.get(1)), ([7.0] * 3, *before), "what a call was lent")


def the_guard():
    """Puts all of MXCSR back, nests, also as one object, and says where it is left in another thread."""
    for csr in (*SETTINGS, 0x1FBF, 0xFFFF & ~0x1F80 | PROVED):
        set_mxcsr(csr)
        with sim3.environment() as once, once, sim3.environment():
            pass
        same(raw.library()["environment_enter"](), csr, "MXCSR after the guard")
    left = sim3.environment()
    entered = threading.Thread(target=left.__enter__)
    entered.start()
    entered.join()
    try:
        left.__exit__(None, None, None)
    except RuntimeError as error:
        assert "another thread" in str(error)
    else:
        raise AssertionError("a guard was left in another thread than it was entered in")


TESTS = [every_call_asks, traps, the_host_is_asked_after, the_probe, the_exception, nothing_is_written, the_guard]
