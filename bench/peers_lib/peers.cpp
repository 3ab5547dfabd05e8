// The library for C beside what a caller would take instead, in one process and on the same values: Eigen, where it is
// there (WITH_EIGEN), C's qsort and libm's sqrt; and memcpy of the same lists, which is as fast as bytes are moved. The
// answers are compared before anything is timed. Prints a line for each row: what, the port's nanoseconds, the peer,
// its nanoseconds.
//
// usage: peers ROUNDS FLAGS     each side ROUNDS times in turn, the least time counts; FLAGS is printed with each row
#include <algorithm>
#include <chrono>
#include <cmath>
#include <cstdint>
#include <cstdio>
#include <cstdlib>
#include <cstring>
#include <functional>
#include <string>
#include <vector>

extern "C" {
#include "sim3.h"
}
#ifdef WITH_EIGEN
#include <Eigen/Dense>
#include <Eigen/Geometry>
#endif

namespace {

constexpr double TOLERANCE = 1e-12;
constexpr int POSES = 256, LONG = 20000, SHORT = 200, TANGENTS = 1024, NUMBERS = 7 * TANGENTS;
int rounds;
std::string flags;
uint64_t state = 1;

double drawn() { // from -1 to 1
    uint64_t x = state += 0x9e3779b97f4a7c15u;
    x = (x ^ x >> 30) * 0xbf58476d1ce4e5b9u;
    x = (x ^ x >> 27) * 0x94d049bb133111ebu;
    return static_cast<double>((x ^ x >> 31) >> 11) / 4503599627370496.0 - 1.0;
}

[[noreturn]] void fail(const std::string &what) {
    std::fprintf(stderr, "peers: %s: the answers differ, so nothing is timed\n", what.c_str());
    std::exit(1);
}

void same(const std::string &what, const double *a, const double *b, int n) {
    for (int i = 0; i < n; i++)
        if (!(std::fabs(a[i] - b[i]) <= TOLERANCE * (1 + std::fabs(b[i])))) fail(what);
}

double nanoseconds(const std::function<void()> &work) {
    auto begin = std::chrono::steady_clock::now();
    work();
    return std::chrono::duration<double, std::nano>(std::chrono::steady_clock::now() - begin).count();
}

// Both sides in turn; the least time of each, of one of `count`.
void row(const char *what, int count, const std::function<void()> &port, const char *peer,
         const std::function<void()> &other) {
    double least = 1e300, others = 1e300;
    for (int i = 0; i < rounds; i++) {
        least = std::min(least, nanoseconds(port));
        others = std::min(others, nanoseconds(other));
    }
    std::printf("%s | %.2f | %s%s | %.2f\n", what, least / count, peer, flags.c_str(), others / count);
    std::fflush(stdout);
}

struct Pose {
    double numbers[8], up, down; // quaternion w x y z, translation, sigma; e^sigma and e^-sigma
};

Pose drawn_pose() {
    Pose p;
    double n = 0;
    for (int i = 0; i < 8; i++) p.numbers[i] = drawn();
    for (int i = 0; i < 4; i++) n += p.numbers[i] * p.numbers[i];
    for (int i = 0; i < 4; i++) p.numbers[i] /= std::sqrt(n);
    p.up = std::exp(p.numbers[7]), p.down = std::exp(-p.numbers[7]);
    return p;
}

std::vector<Pose> poses(POSES);
std::vector<double> points(3 * LONG), moved(3 * LONG), others_points(3 * LONG);
const uint16_t frames[2] = {1, 1};
uint16_t out_frames[2];
volatile uint32_t refused;

const Pose &following(int i) { return poses[(i + 1) % POSES]; }
void port_product(int i, double *out) {
    const Pose &x = poses[i];
    refused = sim3_mul(x.numbers, 8, frames, 2, following(i).numbers, 8, frames, 2, x.up, out, 8, out_frames, 2);
}
void port_inverse(int i, double *out) {
    refused = sim3_inverse(poses[i].numbers, 8, frames, 2, poses[i].down, out, 8, out_frames, 2);
}
void port_action(int i, double *out) {
    refused = sim3_act_each(poses[i].numbers, 8, poses[i].up, &points[3 * i], 3, out, 3);
}

#ifdef WITH_EIGEN
using Eigen::Map;
using Eigen::Matrix3Xd;
using Eigen::Quaterniond;
using Eigen::Vector3d;

Quaterniond turn(const Pose &p) { return {p.numbers[0], p.numbers[1], p.numbers[2], p.numbers[3]}; }
Vector3d shift(const Pose &p) { return {p.numbers[4], p.numbers[5], p.numbers[6]}; }
void store(const Quaterniond &q, const Vector3d &t, double sigma, double *out) {
    out[0] = q.w(), out[1] = q.x(), out[2] = q.y(), out[3] = q.z();
    out[4] = t.x(), out[5] = t.y(), out[6] = t.z(), out[7] = sigma;
}
void eigen_product(int i, double *out) {
    const Pose &x = poses[i], &y = following(i);
    store(turn(x) * turn(y), x.up * (turn(x) * shift(y)) + shift(x), x.numbers[7] + y.numbers[7], out);
}
void eigen_inverse(int i, double *out) {
    const Pose &x = poses[i];
    Quaterniond back = turn(x).conjugate();
    store(back, -(x.down * (back * shift(x))), -x.numbers[7], out);
}
void eigen_action(int i, double *out) {
    Map<Vector3d> to(out);
    to = poses[i].up * (turn(poses[i]) * Map<const Vector3d>(&points[3 * i])) + shift(poses[i]);
}
void eigen_product_of_lists(int n) {
    Eigen::Matrix3d m = poses[0].up * turn(poses[0]).toRotationMatrix();
    Map<Matrix3Xd>(others_points.data(), 3, n).noalias() = m * Map<const Matrix3Xd>(points.data(), 3, n);
    Map<Matrix3Xd>(others_points.data(), 3, n).colwise() += shift(poses[0]);
}
void eigen_loop(int n) {
    Eigen::Matrix3d m = poses[0].up * turn(poses[0]).toRotationMatrix();
    Vector3d t = shift(poses[0]);
    for (int i = 0; i < n; i++) {
        Map<Vector3d> to(&others_points[3 * i]);
        to = m * Map<const Vector3d>(&points[3 * i]) + t;
    }
}

void single(const char *what, void port(int, double *), const char *peer, void other(int, double *), int width) {
    static double a[POSES * 8], b[POSES * 8];
    auto all = [width](void f(int, double *), double *out) { for (int i = 0; i < POSES; i++) f(i, out + width * i); };
    all(port, a), all(other, b);
    same(what, a, b, width * POSES);
    row(what, POSES, [&] { all(port, a); }, peer, [&] { all(other, b); });
}
#endif

void port_list(int n) {
    refused = sim3_act_many(poses[0].numbers, 8, poses[0].up, points.data(), 3 * n, moved.data(), 3 * n);
}
void copy_list(int n) { std::memcpy(others_points.data(), points.data(), sizeof(double) * 3 * n); }
void list(int n, const char *what, const char *peer, void other(int), bool compared) {
    int times = LONG / n; // so that a short list is timed over as many points
    port_list(n), other(n);
    if (compared) same(what, moved.data(), others_points.data(), 3 * n);
    auto repeated = [n, times](void f(int)) { for (int i = 0; i < times; i++) f(n); };
    row(what, n * times, [&] { repeated(port_list); }, peer, [&] { repeated(other); });
}

int by_total_order(const void *a, const void *b) {
    auto x = static_cast<const uint64_t *>(a), y = static_cast<const uint64_t *>(b);
    for (int i = 0; i < 7; i++)
        if (x[i] != y[i]) {
            uint64_t p = x[i] >> 63 ? ~x[i] : x[i] | 1ull << 63, q = y[i] >> 63 ? ~y[i] : y[i] | 1ull << 63;
            return p < q ? -1 : 1;
        }
    return 0;
}
void order() {
    static uint64_t start[NUMBERS], a[NUMBERS], b[NUMBERS];
    for (uint64_t &word : start) {
        double x = drawn();
        std::memcpy(&word, &x, 8);
    }
    auto port = [&] { std::memcpy(a, start, sizeof a), refused = sim3_sort_tangents(a, NUMBERS); };
    auto other = [&] { std::memcpy(b, start, sizeof b), std::qsort(b, TANGENTS, 56, by_total_order); };
    port(), other();
    if (std::memcmp(a, b, sizeof a)) fail("order of 1,024 tangents");
    row("order of 1,024 tangents", 1, port, "qsort", other);
}
void root() {
    static double a[POSES], b[POSES], z[POSES];
    for (int i = 0; i < POSES; i++) z[i] = std::exp(40 * drawn());
    auto port = [&] {
        for (int i = 0; i < POSES; i++) {
            uint64_t whole[2];
            int64_t exponent;
            refused = sim3_root(z[i], whole, 2, &exponent, 1, &a[i], 1);
        }
    };
    auto other = [&] { for (int i = 0; i < POSES; i++) b[i] = std::sqrt(z[i]); };
    port(), other();
    if (std::memcmp(a, b, sizeof a)) fail("square root");
    row("square root with what is left", POSES, port, "sqrt", other);
}

} // namespace

int main(int argc, char **argv) {
    rounds = argc > 1 ? std::atoi(argv[1]) : 200;
    flags = argc > 2 ? argv[2] : "";
    for (Pose &p : poses) p = drawn_pose();
    for (double &x : points) x = drawn();
#ifdef WITH_EIGEN
    single("product of poses", port_product, "Eigen, Quaternion", eigen_product, 8);
    single("inverse of a pose", port_inverse, "Eigen, Quaternion", eigen_inverse, 8);
    single("action on a point", port_action, "Eigen, Quaternion", eigen_action, 3);
    list(SHORT, "200 points, one", "Eigen, 3 x 3 times 3 x n", eigen_product_of_lists, true);
    list(SHORT, "200 points, one", "Eigen, loop of m * p + t", eigen_loop, true);
    list(LONG, "20,000 points, one", "Eigen, 3 x 3 times 3 x n", eigen_product_of_lists, true);
    list(LONG, "20,000 points, one", "Eigen, loop of m * p + t", eigen_loop, true);
#else
    (void)same, (void)port_product, (void)port_inverse, (void)port_action;
#endif
    list(LONG, "20,000 points, one", "memcpy", copy_list, false);
    order();
    root();
    return refused ? 1 : 0;
}
