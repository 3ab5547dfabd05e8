"""load_library.py WHEN LIBRARY: loads a library linked with -ffast-math before or after `import sim3`, or after it in a
second thread, and says what a call then does there, in the first thread, in threads that it starts, and inside the
guard: the bits of its answer, or the register in its error."""
import ctypes
import pathlib
import sys
import threading

sys.path.insert(0, str(pathlib.Path(__file__).resolve().parents[2] / "bindings/python"))
WHEN, LIBRARY = sys.argv[1:]
if WHEN == "before":
    ctypes.CDLL(LIBRARY)
import sim3


def moved():
    """The identity on (5e-324, 1e-310, 1)."""
    try:
        return sim3.act_each([1, 0, 0, 0, 0, 0, 0, 0], POINT, 1.0).tobytes().hex()[:32]
    except sim3.OtherEnvironment as error:
        return f"{error.mxcsr:04x}"


def in_thread(*calls):
    """What the last of some calls gives in a thread of its own."""
    found = []
    thread = threading.Thread(target=lambda: found.extend(call() for call in calls))
    thread.start()
    thread.join()
    return found[-1]


POINT = (ctypes.c_double * 3).from_buffer_copy(bytes.fromhex("0100000000000000" "2be6708b68120000" "000000000000f03f"))
if WHEN == "after":
    first = moved()
    ctypes.CDLL(LIBRARY)
    print("before it:", first)
if WHEN == "thread":
    print("the thread that loads it:", in_thread(lambda: ctypes.CDLL(LIBRARY), moved))
print("the first thread:", moved())
print("a thread of the first:", in_thread(moved))
with sim3.environment():
    print("inside the guard:", moved())
    print("a thread of the guard:", in_thread(moved))
print("after the guard:", moved())
