// The engine from C++: joins two runs of shots by a similarity, and frames keep the order of the factors right; moves
// the points of a staff line, computes Jacobian blocks, joins shots as they come, and shows refusals. Compares every
// answer with numbers known by hand; exit status 1 and a message if one is wrong. examples/cpp/run builds and runs it;
// if Eigen's headers are found, with Eigen's types too.
#if __has_include(<Eigen/Geometry>)
#include <Eigen/Core>
#include <Eigen/Geometry>
#endif

#include <cmath>
#include <iostream>

#include "sim3.hpp"

namespace {

constexpr std::uint16_t FIRST = 1, SECOND = 2, SHOT = 10, NEXT = 11;
const double QUARTER = std::acos(0.0), DOUBLED = std::log(2.0), HALF_ROOT = std::sqrt(0.5);
int wrong = 0;

template <class Found, class Expected>
void known(const char *what, const Found &found, const Expected &expected, double most = 1e-12) {
    std::cout << what << ":";
    std::size_t i = 0;
    for (const auto number : found) {
        std::cout << ' ' << static_cast<double>(number);
        if (!(std::fabs(static_cast<double>(number) - expected[i]) <= most))
            wrong++, std::cout << " (WRONG, not " << expected[i] << ")";
        i++;
    }
    if (i != expected.size())
        wrong++, std::cout << " (WRONG: " << i << " numbers and not " << expected.size() << ")";
    std::cout << '\n';
}

template <class Call> void refused(std::uint32_t number, Call call) {
    try {
        call();
        wrong++, std::cout << "WRONG: an answer and not refusal " << number << '\n';
    } catch (const sim3::Refusal &refusal) {
        std::cout << refusal.what() << '\n';
        if (refusal.number() != number)
            wrong++, std::cout << "WRONG: refusal " << refusal.number() << " and not " << number << '\n';
    }
}

/// A block times a tangent.
std::array<double, 7> times(const sim3::Block &block, const sim3::Tangent &tau) {
    std::array<double, 7> product{};
    for (std::size_t row = 0; row < 7; row++)
        for (std::size_t column = 0; column < 7; column++) product[row] += block(row, column) * tau[column];
    return product;
}

using Numbers = std::vector<double>;

} // namespace

int main() {
    const sim3::Tangent turn{{0, 0, QUARTER, 0, 0, 0, DOUBLED}}; // a quarter turn about z, and twice the size
    const sim3::Pose shift{{1, 0, 0, 0, 10, 22, 30, 0}, FIRST, FIRST};
    const sim3::Pose x = shift * sim3::exp(turn, SHOT, FIRST);
    const sim3::Pose y{{1, 0, 0, 0, 1, 0, 0, 0}, SHOT, SECOND};
    const sim3::Pose join = sim3::mul_inv(x, y);
    const sim3::Pose next{{1, 0, 0, 0, 2, 0, 0, 0}, NEXT, SECOND};
    known("join", join.numbers, Numbers{HALF_ROOT, 0, 0, HALF_ROOT, 10, 20, 30, DOUBLED});
    known("its frames", join.frames(), Numbers{SECOND, FIRST});
    known("next shot", (join * next).numbers, Numbers{HALF_ROOT, 0, 0, HALF_ROOT, 10, 24, 30, DOUBLED});
    known("and back", sim3::inv_mul(join * next, join).numbers, Numbers{1, 0, 0, 0, 2, 0, 0, 0});

    const Numbers line{0, 0, 0, 1, 0, 0, 2, 0, 0}, moved{10, 20, 30, 10, 22, 30, 10, 24, 30};
    known("staff line", sim3::act_many(join, line), moved);
    known("point by point", sim3::act_each(join, line), moved);
    const sim3::PoseF single = sim3::exp(
        sim3::TangentF{{0, 0, static_cast<float>(QUARTER), 0, 0, 0, static_cast<float>(DOUBLED)}}, SHOT, FIRST);
    known("line at f32", sim3::act_many(single, std::array<float, 3>{1, 0, 0}), Numbers{0, 2, 0}, 1e-6);

    const sim3::Tangent tau{{0.1, -0.2, 0.3, 1, 2, 3, 0.5}};
    const sim3::BlockPair pair = sim3::block_pair(tau);
    for (const sim3::Block &block : {pair.left, pair.left_inv, pair.right, pair.right_inv})
        known("a block leaves its tangent", times(block, tau), tau.numbers);
    known("moved point by sigma", sim3::act_jacobians_left(join, {1, 0, 0}).by_sigma, Numbers{10, 22, 30});

    sim3::Running running;
    running.every(2);
    for (int shot = 0; shot < 4; shot++)
        running.push(sim3::Pose{{HALF_ROOT, 0, 0, HALF_ROOT, 1, 0, 0, 0}, FIRST, FIRST});
    known("four shots", running.pose().numbers, Numbers{-1, 0, 0, 0, 0, 0, 0, 0});
    sim3::Sheets sheets;
    sheets.put(7, 1, shift), sheets.put(7, 3, join);
    known("the take that is kept", std::array<double, 1>{static_cast<double>(sheets.get(7).first)}, Numbers{3});
    known("root of 2", std::array<double, 1>{sim3::root(2).nearest}, Numbers{std::sqrt(2.0)});

    refused(9, [&] { sim3::mul(next, join); }); // the wrong way round
    refused(9, [&] { running.push(next); });
    refused(1, [] { sim3::scaled_pair(0.0, -1.0); });
    refused(2, [] { sim3::block_inverse(sim3::Block{}); });
    refused(5, [&] { sim3::act_many(join, Numbers(7)); });
    refused(8, [] { sim3::root(HUGE_VAL); });
    refused(10, [&] { sheets.put(7, 3, join); });
    refused(12, [&] { sheets.get(8); });
    sim3::Status status;
    sim3::mul(next, join, &status);
    known("the number alone", std::array<std::uint32_t, 1>{status.number}, Numbers{9});

#ifdef EIGEN_GEOMETRY_MODULE_H
    const Eigen::Vector4d place = join.matrix() * Eigen::Vector4d(1, 0, 0, 1);
    known("by Eigen's matrix", Numbers(place.data(), place.data() + 3), Numbers{10, 22, 30});
    const auto again =
        sim3::Pose::from_parts(join.quaternion(), join.translation(), join.numbers[7], join.from, join.to);
    known("by Eigen's quaternion", again.numbers, join.numbers);
    const Eigen::Matrix<double, 7, 1> same = pair.left.matrix() * tau.vector();
    known("by Eigen's 7 by 7", Numbers(same.data(), same.data() + 7), tau.numbers);
    known("by its map", sim3::Tangent::from(same).numbers, tau.numbers);
#endif
    std::cout << (wrong ? "example: WRONG, see above\n" : "example: every answer is the one known by hand\n");
    return wrong ? 1 : 0;
}
