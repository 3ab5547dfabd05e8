// sim3.hpp: the proved Sim(3) engine for C++17, over sim3.h and the same library; nothing more is linked. Both widths:
// Pose is of doubles, PoseF of floats, and so Tangent, Values, Block; the functions take either. sim3.h says what each
// computes; the host's values may be left out, sim3_host.h then computes them.
//
// A function answers, or throws sim3::Refusal, whose number is sim3.h's. With a sim3::Status as the last argument of
// what can be refused nothing is thrown: it then holds the number, 0 where the call was answered, and a refused answer
// is empty, or all zeros and the pose that moves nothing.
//
// Where <Eigen/Core> and <Eigen/Geometry> are included first, quaternion(), translation() and matrix() of a pose and
// matrix() of a block are there as Eigen's, and poses and tangents are made from them.
#ifndef SIM3_HPP
#define SIM3_HPP

#include <array>
#include <cstddef>
#include <cstdint>
#include <cstring>
#include <stdexcept>
#include <string>
#include <utility>
#include <vector>

#include "sim3.h"
#include "sim3_environment.hpp"
#include "sim3_host.h"
#include "sim3_host_f32.h"
#include "sim3_refusal.h"

namespace sim3 {

/// A refusal of the engine: its number in sim3.h, and what to do, in words.
class Refusal : public std::runtime_error {
public:
    explicit Refusal(std::uint32_t number, const char *function)
        : std::runtime_error("sim3::" + std::string(function) + ": refusal " + std::to_string(number) + ": " +
                             sim3_refusal_text(number)),
          number_(number) {}
    std::uint32_t number() const noexcept { return number_; }

private:
    std::uint32_t number_;
};

/// The number of a refusal, for calls that throw nothing; 0 for an answer.
struct Status {
    std::uint32_t number = SIM3_OK;
    explicit operator bool() const noexcept { return number == SIM3_OK; }
};

/// The seven numbers of a tangent: phi, rho, sigma.
template <class T> struct BasicTangent {
    std::array<T, 7> numbers{};
    const T *data() const noexcept { return numbers.data(); }
    T &operator[](std::size_t i) { return numbers[i]; }
    const T &operator[](std::size_t i) const { return numbers[i]; }
#ifdef EIGEN_CORE_H
    static BasicTangent from(const Eigen::Matrix<T, 7, 1> &vector) {
        BasicTangent result;
        Eigen::Map<Eigen::Matrix<T, 7, 1>>(result.numbers.data()) = vector;
        return result;
    }
    Eigen::Map<const Eigen::Matrix<T, 7, 1>> vector() const {
        return Eigen::Map<const Eigen::Matrix<T, 7, 1>>(numbers.data());
    }
#endif
};

/// A pose: quaternion w x y z, translation x y z, sigma; it maps points of the frame `from` to points of the frame
/// `to`.
template <class T> struct BasicPose {
    std::array<T, 8> numbers{T(1)};
    std::uint16_t from = 0, to = 0;
    const T *data() const noexcept { return numbers.data(); }
    std::array<std::uint16_t, 2> frames() const noexcept { return {from, to}; }
#ifdef EIGEN_CORE_H
    Eigen::Map<const Eigen::Matrix<T, 3, 1>> translation() const {
        return Eigen::Map<const Eigen::Matrix<T, 3, 1>>(numbers.data() + 4);
    }
#endif
#ifdef EIGEN_GEOMETRY_MODULE_H
    Eigen::Quaternion<T> quaternion() const {
        return Eigen::Quaternion<T>(numbers[0], numbers[1], numbers[2], numbers[3]);
    }
    static BasicPose from_parts(const Eigen::Quaternion<T> &q, const Eigen::Matrix<T, 3, 1> &t, T sigma,
                                std::uint16_t from, std::uint16_t to) {
        return BasicPose{{q.w(), q.x(), q.y(), q.z(), t.x(), t.y(), t.z(), sigma}, from, to};
    }
    /// The matrix that maps (p, 1): s R and t, by Eigen's product and the host's e^sigma.
    Eigen::Matrix<T, 4, 4> matrix() const {
        Eigen::Matrix<T, 4, 4> result = Eigen::Matrix<T, 4, 4>::Identity();
        result.template topLeftCorner<3, 3>() =
            static_cast<T>(std::exp(static_cast<double>(numbers[7]))) * quaternion().toRotationMatrix();
        result.template topRightCorner<3, 1>() = translation();
        return result;
    }
#endif
};

/// A block: the 7 by 7 matrix with the rows (a 0 0), (b c f), (0 0 e); a, b and c are column by column.
template <class T> struct BasicBlock {
    std::array<T, 31> numbers{};
    const T *data() const noexcept { return numbers.data(); }
    /// The entry in a row and a column of the 7 by 7 matrix, each below 7.
    T operator()(std::size_t row, std::size_t column) const {
        if (row < 3) return column < 3 ? numbers[3 * column + row] : T(0);
        if (row == 6) return column == 6 ? numbers[30] : T(0);
        return column < 6 ? numbers[9 + 3 * column + (row - 3)] : numbers[27 + (row - 3)];
    }
#ifdef EIGEN_CORE_H
    Eigen::Map<const Eigen::Matrix<T, 3, 3>> a() const {
        return Eigen::Map<const Eigen::Matrix<T, 3, 3>>(numbers.data());
    }
    Eigen::Map<const Eigen::Matrix<T, 3, 3>> b() const {
        return Eigen::Map<const Eigen::Matrix<T, 3, 3>>(numbers.data() + 9);
    }
    Eigen::Map<const Eigen::Matrix<T, 3, 3>> c() const {
        return Eigen::Map<const Eigen::Matrix<T, 3, 3>>(numbers.data() + 18);
    }
    Eigen::Map<const Eigen::Matrix<T, 3, 1>> f() const {
        return Eigen::Map<const Eigen::Matrix<T, 3, 1>>(numbers.data() + 27);
    }
    Eigen::Matrix<T, 7, 7> matrix() const {
        Eigen::Matrix<T, 7, 7> result;
        for (int row = 0; row < 7; row++)
            for (int column = 0; column < 7; column++)
                result(row, column) = (*this)(static_cast<std::size_t>(row), static_cast<std::size_t>(column));
        return result;
    }
#endif
};

/// The ten values of sim3.h, which the host computes.
template <class T> struct BasicValues {
    std::array<T, 10> numbers{};
    const T *data() const noexcept { return numbers.data(); }
};

/// The nine coefficients and the flag.
template <class T> using BasicCoefficients = std::array<T, 10>;

/// The rule that formed coefficients: the arm, 1 to 5, and 1 where v0 and w0 of the closed arm come from series, else
/// 0.
template <class T> using BasicArm = std::array<T, 2>;

/// J_l(tau), its inverse, J_r(tau), its inverse.
template <class T> struct BasicBlockPair { BasicBlock<T> left, left_inv, right, right_inv; };

/// Of X p: by phi, by rho, by sigma, and by p; matrices column by column.
template <class T> struct BasicActJacobians {
    std::array<T, 9> by_phi, by_rho;
    std::array<T, 3> by_sigma;
    std::array<T, 9> by_point;
};

using Tangent = BasicTangent<double>;
using Pose = BasicPose<double>;
using Block = BasicBlock<double>;
using Values = BasicValues<double>;
using BlockPair = BasicBlockPair<double>;
using ActJacobians = BasicActJacobians<double>;
using TangentF = BasicTangent<float>;
using PoseF = BasicPose<float>;
using BlockF = BasicBlock<float>;
using ValuesF = BasicValues<float>;
using BlockPairF = BasicBlockPair<float>;
using ActJacobiansF = BasicActJacobians<float>;

/// The functions of sim3.h and the host's, by the width of their numbers.
template <class T> struct Width;
#define SIM3_WIDTH(type, ending)                                                                                       \
    template <> struct Width<type> {                                                                                   \
        static constexpr auto exp = sim3_exp##ending;                                                                  \
        static constexpr auto mul = sim3_mul##ending;                                                                  \
        static constexpr auto inverse = sim3_inverse##ending;                                                          \
        static constexpr auto mul_inv = sim3_mul_inv##ending;                                                          \
        static constexpr auto inv_mul = sim3_inv_mul##ending;                                                          \
        static constexpr auto renormalize = sim3_renormalize##ending;                                                  \
        static constexpr auto act_many = sim3_act_many##ending;                                                        \
        static constexpr auto act_each = sim3_act_each##ending;                                                        \
        static constexpr auto scaled_pair = sim3_scaled_pair##ending;                                                  \
        static constexpr auto coeffs_armed = sim3_coeffs_armed##ending;                                                \
        static constexpr auto armed_pair = sim3_armed_pair##ending;                                                    \
        static constexpr auto block_pair = sim3_block_pair##ending;                                                    \
        static constexpr auto block_inverse = sim3_block_inverse##ending;                                              \
        static constexpr auto adjoint = sim3_adjoint##ending;                                                          \
        static constexpr auto act_jacobians_right = sim3_act_jacobians_right##ending;                                  \
        static constexpr auto act_jacobians_left = sim3_act_jacobians_left##ending;                                    \
        static constexpr auto compose_jacobians_right = sim3_compose_jacobians_right##ending;                          \
        static constexpr auto compose_jacobians_left = sim3_compose_jacobians_left##ending;                            \
        static constexpr auto inverse_jacobian_right = sim3_inverse_jacobian_right##ending;                            \
        static constexpr auto inverse_jacobian_left = sim3_inverse_jacobian_left##ending;                              \
        static constexpr auto nearest_arm = sim3_nearest_arm##ending;                                                  \
        static type up(const BasicPose<type> &x) { return sim3_host_up##ending(x.data()); }                            \
        static type down(const BasicPose<type> &x) { return sim3_host_down##ending(x.data()); }                        \
        static type ds(const BasicPose<type> &x, const BasicPose<type> &y) {                                           \
            return sim3_host_ds##ending(x.data(), y.data());                                                           \
        }                                                                                                              \
        static void tangent_values(const type *tau, type *out) { sim3_host_tangent_values##ending(tau, out); }         \
        static void values(type sigma, type z, type *out) { sim3_host_values##ending(sigma, z, out); }                 \
        static void rotation_jacobians(const type *phi, type *jl, type *jl_inv) {                                      \
            sim3_host_rotation_jacobians##ending(phi, jl, jl_inv);                                                     \
        }                                                                                                              \
    };
SIM3_WIDTH(double, )
SIM3_WIDTH(float, _f32)
#undef SIM3_WIDTH

namespace detail {

/// Stores the number of a refusal, or throws a Refusal.
inline void check(std::uint32_t number, const char *function, Status *status) {
#ifndef NDEBUG
    ask_environment(); // no answer in another environment
#endif
    if (status)
        status->number = number;
    else if (number != SIM3_OK)
        throw Refusal(number, function);
}

/// Copies the next N numbers of a list, and moves `at` behind them.
template <class T, std::size_t N> std::array<T, N> part(const T *&at) {
    std::array<T, N> result;
    for (T &number : result) number = *at++;
    return result;
}

template <class T, class F, class U>
BasicPose<T> join(F function, const char *name, Status *status, const BasicPose<T> &x, const BasicPose<T> &y,
                  U value) {
    BasicPose<T> result;
    const auto of_x = x.frames(), of_y = y.frames();
    std::array<std::uint16_t, 2> frames{};
    check(function(x.data(), 8, of_x.data(), 2, y.data(), 8, of_y.data(), 2, value, result.numbers.data(), 8,
                   frames.data(), 2),
          name, status);
    result.from = frames[0], result.to = frames[1];
    return result;
}

template <class T, class F>
std::vector<T> move_points(F function, const char *name, Status *status, const BasicPose<T> &x, const T *points,
                           std::size_t count) {
    constexpr std::size_t most = 65535; // numbers at one call
    std::vector<T> result(count);
    const T up = Width<T>::up(x);
    if (count % 3 != 0) {
        check(SIM3_POINTS_LENGTH, name, status);
        return {};
    }
    if (status) status->number = SIM3_OK;
    for (std::size_t at = 0; at < count; at += most) {
        const std::size_t size = count - at < most ? count - at : most;
        check(function(x.data(), 8, up, points + at, size, result.data() + at, size), name, status);
    }
    return result;
}

template <class T, class F> BasicBlock<T> block_of(F function, const BasicPose<T> &x, T value, const char *name) {
    BasicBlock<T> result;
    check(function(x.data(), 8, value, result.numbers.data(), 31), name, nullptr);
    return result;
}

template <class T, class F>
std::pair<BasicBlock<T>, BasicBlock<T>> blocks_of(F function, const BasicPose<T> &x, T value, const char *name) {
    std::array<T, 62> out{};
    check(function(x.data(), 8, value, out.data(), 62), name, nullptr);
    const T *at = out.data();
    BasicBlock<T> first{part<T, 31>(at)};
    return {first, BasicBlock<T>{part<T, 31>(at)}};
}

template <class T, class F>
BasicActJacobians<T> act_jacobians(F function, const BasicPose<T> &x, const std::array<T, 3> &p, const char *name) {
    std::array<T, 30> out{};
    check(function(x.data(), 8, Width<T>::up(x), p.data(), 3, out.data(), 30), name, nullptr);
    const T *at = out.data();
    BasicActJacobians<T> result;
    result.by_phi = part<T, 9>(at), result.by_rho = part<T, 9>(at), result.by_sigma = part<T, 3>(at),
    result.by_point = part<T, 9>(at);
    return result;
}

} // namespace detail

/// The host's ten values of a tangent, and of a log scale and a squared angle.
template <class T> BasicValues<T> values(const BasicTangent<T> &tau) {
    BasicValues<T> result;
    Width<T>::tangent_values(tau.data(), result.numbers.data());
    return result;
}
template <class T> BasicValues<T> values(T sigma, T z) {
    BasicValues<T> result;
    Width<T>::values(sigma, z, result.numbers.data());
    return result;
}

/// Exp(tau), with these frames.
template <class T>
BasicPose<T> exp(const BasicTangent<T> &tau, std::uint16_t from, std::uint16_t to, const BasicValues<T> &values) {
    BasicPose<T> result;
    const std::array<std::uint16_t, 2> given{from, to};
    std::array<std::uint16_t, 2> frames{};
    detail::check(
        Width<T>::exp(tau.data(), 7, values.data(), 10, given.data(), 2, result.numbers.data(), 8, frames.data(), 2),
        "exp", nullptr);
    result.from = frames[0], result.to = frames[1];
    return result;
}
template <class T> BasicPose<T> exp(const BasicTangent<T> &tau, std::uint16_t from, std::uint16_t to) {
    return exp(tau, from, to, values(tau));
}

/// X Y, from where Y starts to where X goes; refusal 9 where X does not start where Y goes.
template <class T> BasicPose<T> mul(const BasicPose<T> &x, const BasicPose<T> &y, Status *status = nullptr) {
    return detail::join(Width<T>::mul, "mul", status, x, y, Width<T>::up(x));
}
template <class T> BasicPose<T> operator*(const BasicPose<T> &x, const BasicPose<T> &y) { return mul(x, y); }

/// X Y^-1, from where Y goes to where X goes; refusal 9 where they start from two frames.
template <class T> BasicPose<T> mul_inv(const BasicPose<T> &x, const BasicPose<T> &y, Status *status = nullptr) {
    return detail::join(Width<T>::mul_inv, "mul_inv", status, x, y, Width<T>::ds(x, y));
}

/// Y^-1 X, from where X starts to where Y starts; refusal 9 where they go to two frames.
template <class T> BasicPose<T> inv_mul(const BasicPose<T> &x, const BasicPose<T> &y, Status *status = nullptr) {
    return detail::join(Width<T>::inv_mul, "inv_mul", status, x, y, Width<T>::down(y));
}

/// X^-1, with the frames exchanged.
template <class T> BasicPose<T> inverse(const BasicPose<T> &x) {
    BasicPose<T> result;
    const auto given = x.frames();
    std::array<std::uint16_t, 2> frames{};
    detail::check(
        Width<T>::inverse(x.data(), 8, given.data(), 2, Width<T>::down(x), result.numbers.data(), 8, frames.data(), 2),
        "inverse", nullptr);
    result.from = frames[0], result.to = frames[1];
    return result;
}

/// The pose after one Newton step that brings its quaternion nearer to length 1.
template <class T> BasicPose<T> renormalize(BasicPose<T> x) {
    detail::check(Width<T>::renormalize(x.numbers.data(), 8), "renormalize", nullptr);
    return x;
}

/// A list of points, x y z of each: any container or span with data() and size(), of any length that is a multiple
/// of 3. act_many forms the matrix s R once; act_each moves each point by itself.
template <class T, class Points>
std::vector<T> act_many(const BasicPose<T> &x, const Points &points, Status *status = nullptr) {
    return detail::move_points<T>(Width<T>::act_many, "act_many", status, x, points.data(), points.size());
}
template <class T, class Points>
std::vector<T> act_each(const BasicPose<T> &x, const Points &points, Status *status = nullptr) {
    return detail::move_points<T>(Width<T>::act_each, "act_each", status, x, points.data(), points.size());
}

/// The coefficients at sigma and at -sigma; refusal 1 where z is below zero.
template <class T>
std::pair<BasicCoefficients<T>, BasicCoefficients<T>> scaled_pair(T sigma, T z, Status *status = nullptr) {
    std::array<T, 20> out{};
    detail::check(Width<T>::scaled_pair(sigma, z, values(sigma, z).data(), 10, out.data(), 20), "scaled_pair", status);
    const T *at = out.data();
    BasicCoefficients<T> first = detail::part<T, 10>(at);
    return {first, detail::part<T, 10>(at)};
}

/// The arm and the coefficients at sigma; refusal 1 where z is below zero.
template <class T> std::pair<BasicArm<T>, BasicCoefficients<T>> coeffs_armed(T sigma, T z, Status *status = nullptr) {
    std::array<T, 12> out{};
    detail::check(Width<T>::coeffs_armed(sigma, z, values(sigma, z).data(), 10, out.data(), 12), "coeffs_armed",
                   status);
    const T *at = out.data();
    BasicArm<T> arm = detail::part<T, 2>(at);
    return {arm, detail::part<T, 10>(at)};
}

/// Arms at sigma and at -sigma, and the two of scaled_pair; refusal 1 where z is below zero.
template <class T> struct BasicArmedPair {
    BasicArm<T> arm, minus_arm;
    BasicCoefficients<T> coefficients, minus_coefficients;
};
template <class T> BasicArmedPair<T> armed_pair(T sigma, T z, Status *status = nullptr) {
    std::array<T, 24> out{};
    detail::check(Width<T>::armed_pair(sigma, z, values(sigma, z).data(), 10, out.data(), 24), "armed_pair", status);
    const T *at = out.data();
    BasicArmedPair<T> result;
    result.arm = detail::part<T, 2>(at), result.minus_arm = detail::part<T, 2>(at);
    result.coefficients = detail::part<T, 10>(at), result.minus_coefficients = detail::part<T, 10>(at);
    return result;
}

/// J_l(tau), its inverse, J_r(tau) and its inverse, from one evaluation; the rotation's own Jacobians are the host's.
template <class T> BasicBlockPair<T> block_pair(const BasicTangent<T> &tau) {
    std::array<T, 9> jl{}, jl_inv{};
    std::array<T, 124> out{};
    Width<T>::rotation_jacobians(tau.data(), jl.data(), jl_inv.data());
    detail::check(
        Width<T>::block_pair(tau.data(), 7, values(tau).data(), 10, jl.data(), 9, jl_inv.data(), 9, out.data(), 124),
        "block_pair", nullptr);
    const T *at = out.data();
    BasicBlockPair<T> result;
    for (BasicBlock<T> *block : {&result.left, &result.left_inv, &result.right, &result.right_inv})
        block->numbers = detail::part<T, 31>(at);
    return result;
}

/// The inverse of a block; refusal 2 where e is a zero.
template <class T> BasicBlock<T> block_inverse(const BasicBlock<T> &j, Status *status = nullptr) {
    BasicBlock<T> result;
    detail::check(Width<T>::block_inverse(j.data(), 31, result.numbers.data(), 31), "block_inverse", status);
    return result;
}

/// Ad_X, and the Jacobians of composition (by X and by Y) and inverse, for X Exp(tau) (right) and Exp(tau) X (left).
template <class T> BasicBlock<T> adjoint(const BasicPose<T> &x) {
    return detail::block_of<T>(Width<T>::adjoint, x, Width<T>::up(x), "adjoint");
}
template <class T> auto compose_jacobians_right(const BasicPose<T> &y) {
    return detail::blocks_of<T>(Width<T>::compose_jacobians_right, y, Width<T>::down(y), "compose_jacobians_right");
}
template <class T> auto compose_jacobians_left(const BasicPose<T> &x) {
    return detail::blocks_of<T>(Width<T>::compose_jacobians_left, x, Width<T>::up(x), "compose_jacobians_left");
}
template <class T> BasicBlock<T> inverse_jacobian_right(const BasicPose<T> &x) {
    return detail::block_of<T>(Width<T>::inverse_jacobian_right, x, Width<T>::up(x), "inverse_jacobian_right");
}
template <class T> BasicBlock<T> inverse_jacobian_left(const BasicPose<T> &x) {
    return detail::block_of<T>(Width<T>::inverse_jacobian_left, x, Width<T>::down(x), "inverse_jacobian_left");
}
template <class T> BasicActJacobians<T> act_jacobians_right(const BasicPose<T> &x, const std::array<T, 3> &p) {
    return detail::act_jacobians<T>(Width<T>::act_jacobians_right, x, p, "act_jacobians_right");
}
template <class T> BasicActJacobians<T> act_jacobians_left(const BasicPose<T> &x, const std::array<T, 3> &p) {
    return detail::act_jacobians<T>(Width<T>::act_jacobians_left, x, p, "act_jacobians_left");
}

/// Poses joined as they come: the first is the running pose, each later one replaces it by running X; after every nth
/// product the quaternion is renormalised.
class Running {
public:
    Running() { detail::check(sim3_running_start(numbers_.data(), 8, state_.data(), 5), "Running", nullptr); }
    /// Joins a pose, and returns the new running pose. Refusal 9 where the running pose does not start where x
    /// goes; then nothing changes.
    Pose push(const Pose &x, Status *status = nullptr) {
        const auto frames = x.frames();
        const double up = sim3_host_up(numbers_.data());
        detail::check(sim3_running_push(numbers_.data(), 8, state_.data(), 5, x.data(), 8, frames.data(), 2, up),
                       "Running::push", status);
        return pose();
    }
    /// From here on after every nth product, 0 for never.
    void every(std::uint16_t n) { detail::check(sim3_running_every(state_.data(), 5, n), "Running::every", nullptr); }
    bool started() const noexcept { return state_[4] != 0; }
    Pose pose() const { return Pose{numbers_, state_[0], state_[1]}; }

private:
    std::array<double, 8> numbers_{};
    std::array<std::uint16_t, 5> state_{};
};

/// For each of up to 512 sheets the pose of the highest take.
class Sheets {
public:
    enum Outcome { New = 1, Replaces = 2, Older = 3 };
    Sheets() : store_(SIM3_SHEETS_SIZE) {
        detail::check(sim3_sheets_start(store_.data(), store_.size()), "Sheets", nullptr);
    }
    /// A shot: its outcome, and the take that was kept before. Refusal 10 if the same take is kept, 11 at a 513th
    /// sheet; then nothing changes.
    std::pair<Outcome, std::uint16_t> put(std::uint16_t sheet, std::uint16_t take, const Pose &x,
                                          Status *status = nullptr) {
        const auto frames = x.frames();
        std::array<std::uint16_t, 2> out{};
        detail::check(
            sim3_sheets_put(store_.data(), store_.size(), sheet, take, x.data(), 8, frames.data(), 2, out.data(), 2),
            "Sheets::put", status);
        return {static_cast<Outcome>(out[0]), out[1]};
    }
    /// The take that is kept of a sheet, and its pose. Refusal 12 where nothing was ever kept of it.
    std::pair<std::uint16_t, Pose> get(std::uint16_t sheet, Status *status = nullptr) const {
        std::uint16_t take = 0;
        std::array<std::uint16_t, 2> frames{};
        Pose result;
        detail::check(
            sim3_sheets_get(store_.data(), store_.size(), sheet, &take, 1, result.numbers.data(), 8, frames.data(), 2),
            "Sheets::get", status);
        result.from = frames[0], result.to = frames[1];
        return {take, result};
    }

private:
    std::vector<std::uint8_t> store_;
};

/// The square root in integers with its remainder; refusal 1 if z is below zero, 8 if it is a NaN or +infinity.
struct Root {
    std::uint64_t root = 0, remainder = 0;
    std::int64_t exponent = 0;
    double nearest = 0;
};
inline Root root(double z, Status *status = nullptr) {
    std::array<std::uint64_t, 2> whole{};
    Root result;
    detail::check(sim3_root(z, whole.data(), 2, &result.exponent, 1, &result.nearest, 1), "root", status);
    result.root = whole[0], result.remainder = whole[1];
    return result;
}

/// Tangents in the order of sim3.h, by the bits of their numbers: -1, 0 or 1; and at most 1,024 put in order, else
/// refusal 5.
inline int compare_tangents(const Tangent &a, const Tangent &b) {
    std::array<std::uint64_t, 7> of_a{}, of_b{};
    std::memcpy(of_a.data(), a.data(), sizeof of_a);
    std::memcpy(of_b.data(), b.data(), sizeof of_b);
    std::int64_t out = 0;
    detail::check(sim3_compare_tangents(of_a.data(), 7, of_b.data(), 7, &out, 1), "compare_tangents", nullptr);
    return static_cast<int>(out);
}
inline void sort_tangents(std::vector<Tangent> &tangents, Status *status = nullptr) {
    std::vector<std::uint64_t> patterns(7 * tangents.size() + 1); // one more, so that data() is not null
    for (std::size_t i = 0; i < tangents.size(); i++)
        std::memcpy(&patterns[7 * i], tangents[i].data(), 7 * sizeof(double));
    detail::check(sim3_sort_tangents(patterns.data(), 7 * tangents.size()), "sort_tangents", status);
    for (std::size_t i = 0; i < tangents.size(); i++)
        std::memcpy(tangents[i].numbers.data(), &patterns[7 * i], 7 * sizeof(double));
}

/// How many neighbouring numbers z is from another arm, 0 if there is none; whether that is above z; and that arm.
/// Refusals 1 and 8.
struct Near {
    std::uint64_t count = 0;
    bool up = false;
    std::uint64_t arm = 0;
};
template <class T> Near nearest_arm(T sigma, T z, Status *status = nullptr) {
    std::array<std::uint64_t, 3> out{};
    detail::check(Width<T>::nearest_arm(sigma, z, out.data(), 3), "nearest_arm", status);
    return {out[0], out[1] != 0, out[2]};
}

} // namespace sim3

#endif
