// sim3_environment.hpp: the environment of sim3.h in C++11 and later: a question that throws, and a guard for a scope.
//
//     sim3::ask_environment(); // once in each thread, and after a library was loaded
//     {
//         sim3::environment proved; // or: whatever the thread has
//         sim3_act_each(...);
//     } // its MXCSR is what it was, flags too
#ifndef SIM3_ENVIRONMENT_HPP
#define SIM3_ENVIRONMENT_HPP

#include <cstdint>
#include <stdexcept>

#include "sim3.h"

namespace sim3 {

/// This thread does not compute as the proofs say.
class OtherEnvironment : public std::runtime_error {
public:
    explicit OtherEnvironment(std::uint32_t differs)
        : std::runtime_error(
              "sim3: this thread flushes, rounds or traps other than is proved, as a library linked with -ffast-math, "
              "fesetround or feenableexcept sets it; sim3::environment sets what is proved"),
          differs_(differs) {}
    /// The result of sim3_environment_differs.
    std::uint32_t differs() const noexcept { return differs_; }

private:
    std::uint32_t differs_;
};

/// Throws where this thread does not compute as the proofs say.
inline void ask_environment() {
    if (const std::uint32_t differs = sim3_environment_differs()) throw OtherEnvironment(differs);
}

/// The thread computes as the proofs say until the end of the scope. It is for the calls there: a compiler may move
/// sums of the caller's own across its ends. It stays in its thread, and no coroutine is suspended in its scope.
class environment {
public:
    environment() noexcept : was_(sim3_environment_enter()) {}
    ~environment() { sim3_environment_leave(was_); }
    environment(const environment &) = delete;
    environment &operator=(const environment &) = delete;

private:
    std::uint32_t was_;
};

} // namespace sim3

#endif
