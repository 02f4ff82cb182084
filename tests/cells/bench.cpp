// Times the proved table of cells beside (a) plain C++ that takes the same steps and (b) LEMON's Preflow on the same marks, in one
// run on the same months. Prints microseconds a table, the least of several runs, and the ratios.
#include <lemon/preflow.h>
#include <lemon/smart_graph.h>

#include <algorithm>
#include <chrono>
#include <cstdint>
#include <cstdio>
#include <cstdlib>
#include <functional>
#include <random>
#include <string>
#include <vector>

using i64 = std::int64_t;
using u64 = std::uint64_t;
using i128 = __int128;

extern "C" void rateio_test_fill(const i64 *vc, std::size_t m, const i64 *vd, std::size_t n, i64 *cells, std::size_t size, u64 *work, std::size_t room);

struct Month {
    std::vector<i64> vc, vd;
};

// The floors, which cells are broken, and what rows lack and columns want.
struct Floors {
    std::vector<i64> cells;
    std::vector<u64> marks, lacks, wants;
};

// Reused between runs, as the proved code's slices are.
static Floors plain_room;

static void floors_into(const Month &t, Floors &f) {
    const std::size_t m = t.vc.size(), n = t.vd.size();
    u64 sum = 0;
    for (i64 d : t.vd) sum += (u64)d;
    f.cells.resize(m * n);
    f.marks.resize(m * n);
    f.lacks.assign(m, 0);
    f.wants.assign(n, 0);
    std::vector<u64> lefts(n, 0);
    for (std::size_t i = 0; i < m; i++) {
        u64 left = 0;
        const bool below = t.vc[i] < 0;
        const u64 size = below ? (u64)-t.vc[i] : (u64)t.vc[i];
        for (std::size_t j = 0; j < n; j++) {
            const unsigned __int128 x = (unsigned __int128)size * (u64)t.vd[j];
            u64 q = (u64)(x / sum), r = (u64)(x - (unsigned __int128)q * sum);
            i64 cell = (i64)q;
            if (below) {
                cell = -cell - (r != 0);
                r = r ? sum - r : 0;
            }
            f.cells[i * n + j] = cell;
            f.marks[i * n + j] = r > 0;
            u64 s = lefts[j] + r;
            u64 c = s >= sum;
            lefts[j] = s - (c ? sum : 0);
            f.wants[j] += c;
            u64 w = left + r;
            u64 d = w >= sum;
            left = w - (d ? sum : 0);
            f.lacks[i] += d;
        }
    }
}

// (a) the same steps in plain C++
namespace plain {
static std::vector<u64> rows, columns, counts;

static std::size_t most_wanting(const Floors &f, std::size_t n, std::size_t i) {
    std::size_t best = n;
    u64 most = 0;
    for (std::size_t j = 0; j < n; j++)
        if (f.wants[j] > most && f.marks[i * n + j] == 1 && columns[j]) best = j, most = f.wants[j];
    return best;
}

static bool visit_column(Floors &f, std::size_t m, std::size_t n, std::size_t j);

static bool visit_row(Floors &f, std::size_t m, std::size_t n, std::size_t i) {
    rows[i] = 0;
    const std::size_t at = most_wanting(f, n, i);
    if (at < n) {
        f.wants[at]--;
        f.marks[i * n + at] = 2;
        return true;
    }
    for (std::size_t j = 0; j < n; j++)
        if (columns[j] && f.marks[i * n + j] == 1 && visit_column(f, m, n, j)) {
            f.marks[i * n + j] = 2;
            return true;
        }
    return false;
}

static bool visit_column(Floors &f, std::size_t m, std::size_t n, std::size_t j) {
    columns[j] = 0;
    for (std::size_t i = 0; i < m; i++)
        if (rows[i] && f.marks[i * n + j] == 2 && visit_row(f, m, n, i)) {
            f.marks[i * n + j] = 1;
            return true;
        }
    return false;
}

static void take(Floors &f, std::size_t n, std::size_t i, u64 least) {
    for (std::size_t j = 0; j < n; j++)
        if (f.wants[j] >= least && f.marks[i * n + j] == 1 && f.lacks[i]) {
            f.marks[i * n + j] = 2;
            f.wants[j]--;
            f.lacks[i]--;
        }
}

static u64 level(u64 k) {
    u64 left = k;
    for (std::size_t t = counts.size(); t > 1;) {
        t--;
        if (counts[t] >= left) return t;
        left -= counts[t];
    }
    return 1;
}

static u64 searched;

static void place(Floors &f, std::size_t m, std::size_t n) {
    counts.assign(m + 1, 0);
    for (std::size_t i = 0; i < m; i++) {
        std::fill(counts.begin(), counts.end(), 0);
        for (std::size_t j = 0; j < n; j++)
            if (f.marks[i * n + j] == 1) counts[f.wants[j]]++;
        const u64 l = level(f.lacks[i]);
        take(f, n, i, l + 1);
        take(f, n, i, l);
    }
    rows.resize(m);
    columns.resize(n);
    searched = 0;
    for (std::size_t i = 0; i < m; i++)
        while (f.lacks[i]) {
            std::fill(rows.begin(), rows.end(), 1);
            std::fill(columns.begin(), columns.end(), 1);
            visit_row(f, m, n, i);
            f.lacks[i]--;
            searched++;
        }
}

static void fill(const Month &t, std::vector<i64> &out) {
    const std::size_t m = t.vc.size(), n = t.vd.size();
    floors_into(t, plain_room);
    place(plain_room, m, n);
    out.resize(m * n);
    for (std::size_t p = 0; p < m * n; p++) out[p] = plain_room.cells[p] + (plain_room.marks[p] == 2);
}
} // namespace plain

// (b) the marks as a flow, by LEMON: the graph is built and solved, and the marks are read back
static void lemon_fill(const Month &t, std::vector<i64> &out, double *solve) {
    const std::size_t m = t.vc.size(), n = t.vd.size();
    static Floors f;
    floors_into(t, f);
    const auto begin = std::chrono::steady_clock::now();
    lemon::SmartDigraph g;
    g.reserveNode(m + n + 2);
    g.reserveArc(m * n + m + n);
    const auto source = g.addNode(), sink = g.addNode();
    std::vector<lemon::SmartDigraph::Node> row(m), column(n);
    for (auto &x : row) x = g.addNode();
    for (auto &x : column) x = g.addNode();
    lemon::SmartDigraph::ArcMap<int> cap(g, 1);
    std::vector<std::pair<lemon::SmartDigraph::Arc, std::size_t>> arcs;
    arcs.reserve(m * n);
    for (std::size_t i = 0; i < m; i++) cap[g.addArc(source, row[i])] = (int)f.lacks[i];
    for (std::size_t j = 0; j < n; j++) cap[g.addArc(column[j], sink)] = (int)f.wants[j];
    for (std::size_t i = 0; i < m; i++)
        for (std::size_t j = 0; j < n; j++)
            if (f.marks[i * n + j]) {
                const auto a = g.addArc(row[i], column[j]);
                cap[a] = 1;
                arcs.push_back({a, i * n + j});
            }
    lemon::Preflow<lemon::SmartDigraph, lemon::SmartDigraph::ArcMap<int>> flow(g, cap, source, sink);
    flow.run();
    out = f.cells;
    for (const auto &[a, p] : arcs) out[p] += flow.flow(a);
    *solve = std::chrono::duration<double, std::micro>(std::chrono::steady_clock::now() - begin).count();
}

static bool right(const Month &t, const std::vector<i64> &cells) {
    const std::size_t m = t.vc.size(), n = t.vd.size();
    i128 sum = 0;
    for (i64 d : t.vd) sum += d;
    std::vector<i128> column(n, 0);
    for (std::size_t i = 0; i < m; i++) {
        i128 row = 0;
        for (std::size_t j = 0; j < n; j++) {
            const i128 over = (i128)cells[i * n + j] * sum - (i128)t.vc[i] * t.vd[j];
            if (over >= sum || over <= -sum) return false;
            row += cells[i * n + j];
            column[j] += cells[i * n + j];
        }
        if (row != t.vc[i]) return false;
    }
    for (std::size_t j = 0; j < n; j++)
        if (column[j] != t.vd[j]) return false;
    return true;
}

static double best_of(int runs, const std::function<void()> &f) {
    double best = 1e30;
    for (int k = 0; k < runs; k++) {
        const auto begin = std::chrono::steady_clock::now();
        f();
        best = std::min(best, std::chrono::duration<double, std::micro>(std::chrono::steady_clock::now() - begin).count());
    }
    return best;
}

// ---- months
using Draw = std::mt19937_64;

static i64 sum_of(const std::vector<i64> &v) {
    i64 s = 0;
    for (i64 x : v) s += x;
    return s;
}

static std::vector<i64> shares(Draw &r, std::size_t m, i64 sum) {
    std::vector<i64> vc(m);
    i64 left = sum;
    for (std::size_t i = 1; i < m; i++) {
        vc[i] = std::min<i64>(left, (i64)(r() % (u64)(2 * sum / (i64)m + 1)));
        left -= vc[i];
    }
    vc[0] = left;
    return vc;
}

static Month month(const std::string &shape, Draw &r, std::size_t m, std::size_t n) {
    Month t;
    t.vd.resize(n);
    if (shape == "equal debits")
        for (auto &x : t.vd) x = 123456789;
    else if (shape == "debits 1 to n")
        for (std::size_t j = 0; j < n; j++) t.vd[j] = (i64)j + 1;
    else if (shape == "many zeros")
        for (auto &x : t.vd) x = r() % 2 ? 0 : (i64)(r() % 4);
    else if (shape == "many whole")
        for (std::size_t j = 0; j < n; j++) t.vd[j] = j < n / 2 ? 1 : (i64)n;
    else if (shape == "large amounts")
        for (auto &x : t.vd) x = (i64)(r() % 150000000000000);
    else
        for (auto &x : t.vd) x = (i64)(r() % 2000000000);
    if (sum_of(t.vd) == 0) t.vd[0] = 1;
    const i64 sum = sum_of(t.vd);
    if (shape == "one large payee") {
        t.vc.resize(m);
        for (auto &x : t.vc) x = (i64)(r() % 1000);
        t.vc[m / 2] = 0;
        t.vc[m / 2] = sum - sum_of(t.vc);
    } else if (shape == "negative credits") {
        t.vc.resize(m);
        for (auto &x : t.vc) x = -(i64)(r() % 1000000000);
        t.vc[m / 2] = 0;
        t.vc[m / 2] = sum - sum_of(t.vc);
    } else if (shape == "many whole") {
        // multiples of ΣVD over its divisors, so that whole cells stand in patterns
        std::vector<i64> divisors;
        for (i64 d = 1; d <= sum && d < 2000; d++)
            if (sum % d == 0) divisors.push_back(d);
        t.vc.resize(m);
        for (auto &x : t.vc) x = (i64)(r() % 4) * (sum / divisors[r() % divisors.size()]) + (r() % 4 == 0);
        t.vc[m / 2] = 0;
        t.vc[m / 2] = sum - sum_of(t.vc);
    } else if (shape == "many zeros") {
        t.vc.resize(m);
        for (auto &x : t.vc) x = r() % 3 ? 0 : (i64)(r() % (u64)(sum + 1));
        t.vc[m / 2] = 0;
        t.vc[m / 2] = sum - sum_of(t.vc);
    } else {
        t.vc = shares(r, m, sum);
    }
    return t;
}

int main(int argc, char **argv) {
    const int runs = argc > 1 ? std::atoi(argv[1]) : 21;
    const std::size_t sizes[][2] = {{17, 64}, {65, 128}, {129, 256}, {257, 512}};
    const char *shapes[] = {"any", "equal debits", "debits 1 to n", "one large payee", "negative credits", "many zeros", "many whole", "large amounts"};
    std::printf("%-17s %9s %9s %9s %6s %9s %9s %6s %8s %8s\n", "shape", "size", "proved", "C++ (a)", "ratio", "floors", "LEMON (b)", "ratio", "ns/cell", "searched");
    for (const char *shape : shapes)
        for (const auto &size : sizes) {
            const std::size_t m = size[0], n = size[1];
            Draw r(m * 1000 + n);
            const Month t = month(shape, r, m, n);
            std::vector<i64> ours(m * n), theirs, flows;
            std::vector<u64> work(2 * m * n + 4 * (m + n));
            Floors f;
            double solve = 0;
            const auto proved = [&] { rateio_test_fill(t.vc.data(), m, t.vd.data(), n, ours.data(), m * n, work.data(), work.size()); };
            double a = 1e30, b = 1e30, c = 1e30, d = 1e30;
            // in turn, so that a busy moment of the machine falls on all alike
            for (int k = 0; k < runs; k++) {
                a = std::min(a, best_of(1, proved));
                b = std::min(b, best_of(1, [&] { plain::fill(t, theirs); }));
                c = std::min(c, best_of(1, [&] { floors_into(t, f); }));
                if (k % 4 == 0) d = std::min(d, best_of(1, [&] { lemon_fill(t, flows, &solve); }));
            }
            if (!right(t, ours) || !right(t, theirs) || !right(t, flows)) {
                std::printf("%s %zu x %zu: a table is wrong\n", shape, m, n);
                return 1;
            }
            const std::string name = std::to_string(m) + "x" + std::to_string(n);
            std::printf("%-17s %9s %9.1f %9.1f %6.2f %9.1f %9.1f %6.2f %8.2f %8llu\n", shape, name.c_str(), a, b, a / b, c, d, a / d, a * 1000 / (double)(m * n), (unsigned long long)plain::searched);
        }
    // the slowest months of the shapes with many whole cells, on which the dealing leaves most to the search
    for (const char *shape : {"many whole", "many zeros"}) {
        double slowest = 0;
        u64 most = 0;
        const std::size_t m = 257, n = 512;
        for (u64 seed = 0; seed < 200; seed++) {
            Draw r(seed);
            const Month t = month(shape, r, m, n - seed);
            std::vector<i64> ours(m * (n - seed)), theirs;
            std::vector<u64> work(2 * ours.size() + 4 * (m + n));
            const double a = best_of(3, [&] { rateio_test_fill(t.vc.data(), m, t.vd.data(), n - seed, ours.data(), ours.size(), work.data(), work.size()); });
            plain::fill(t, theirs);
            if (!right(t, ours)) return 1;
            slowest = std::max(slowest, a);
            most = std::max(most, plain::searched);
        }
        std::printf("%s, 200 months of 257 by 313 to 512: slowest %.1f, most searched %llu\n", shape, slowest, (unsigned long long)most);
    }
    return 0;
}
