"""The settings of the processor's register MXCSR, in words; the proofs are about one of them."""
PROVED = 0x1F80  # to nearest, nothing flushed, every exception masked
FLUSHING = 0x8040
ROUNDING = {0x2000: "rounds down", 0x4000: "rounds up", 0x6000: "rounds toward zero"}
FLUSHES = {0x8000: "flushes denormal results to zero", 0x0040: "reads denormal numbers as zero"}
TRAPS = {0x0080: "invalid", 0x0100: "denormal", 0x0200: "division by zero", 0x0400: "overflow", 0x0800: "underflow",
         0x1000: "inexact"}


class OtherEnvironment(FloatingPointError):
    """This thread does not compute as the proofs say: it rounds or flushes otherwise, or an exception traps. Nothing
    was written. `mxcsr` has the control bits of the processor's register. No Refusal: who skips what is refused must
    not skip every call."""

    def __init__(self, mxcsr, text):
        super().__init__(mxcsr, text)
        self.mxcsr = mxcsr

    def __str__(self):
        return self.args[1]


def words(differs):
    """What the thread does by the bits that differ."""
    found = [ROUNDING[differs & 0x6000]] if differs & 0x6000 else []
    found += [word for bit, word in FLUSHES.items() if differs & bit]
    traps = [word for bit, word in TRAPS.items() if differs & bit]
    return ", ".join(found + (["traps " + ", ".join(traps)] if traps else []))


def cause(differs):
    """What commonly sets such bits."""
    if differs & FLUSHING:
        return "as a library linked with -ffast-math sets it when it is loaded"
    return "as feenableexcept sets it" if differs & PROVED else "as fesetround sets it"


def other_environment(where, differs):
    """The exception for the bits that differ."""
    mxcsr = PROVED ^ differs
    return OtherEnvironment(mxcsr,
                            f"{where}: this thread {words(differs)} (MXCSR is {mxcsr:04x}, and {PROVED:04x} is what "
                            f"is proved), {cause(differs)}; `with sim3.environment():` computes a block as it is "
                            "proved, and then puts back what was there")
