// C++: the question throws, and the guard sets what is proved for its scope, nests, and is not copied. Exit status: 0
// where that is so.
#include "sim3_environment.hpp"
#include <type_traits>
#include <xmmintrin.h>

static_assert(!std::is_copy_constructible<sim3::environment>::value, "a guard is not copied");
static_assert(!std::is_copy_assignable<sim3::environment>::value, "a guard is not copied");

static std::uint32_t asked() {
    try {
        sim3::ask_environment();
    } catch (const sim3::OtherEnvironment &other) {
        return other.differs();
    }
    return 0;
}

int main() {
    _mm_setcsr(0xffc0);
    std::uint32_t outside = asked(), inside, nested;
    {
        sim3::environment proved;
        inside = asked();
        { sim3::environment again; }
        nested = asked();
    }
    std::uint32_t after = _mm_getcsr();
    _mm_setcsr(0x1f80);
    return outside != (0xffc0 ^ 0x1f80) || inside != 0 || nested != 0 || after != 0xffc0;
}
