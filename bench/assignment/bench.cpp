// Compares the proved solver with a hand-written Hungarian algorithm in C++: the bills of thousands of
// tables (and of every permutation up to seven boards), then the time for 16 boards, side by side.
#include <algorithm>
#include <chrono>
#include <cstdint>
#include <cstdio>
#include <cstdlib>
#include <numeric>
#include <random>
#include <vector>

extern "C" uint64_t assignment_least_bill(size_t boards, const uint64_t *costs, size_t len);

static const uint64_t MOST = 17592186044416ull;

// The classic form: one-based tables, potentials u and v, matching p, the path in way.
__attribute__((noinline)) static uint64_t hungarian(int n, const uint64_t *c) {
    const int64_t INF = INT64_MAX;
    int64_t u[17] = {0}, v[17] = {0};
    int p[17] = {0}, way[17] = {0};
    for (int i = 1; i <= n; i++) {
        p[0] = i;
        int j0 = 0;
        int64_t minv[17];
        bool used[17];
        for (int j = 0; j <= n; j++) minv[j] = INF, used[j] = false;
        do {
            used[j0] = true;
            int i0 = p[j0], j1 = 0;
            int64_t delta = INF;
            for (int j = 1; j <= n; j++)
                if (!used[j]) {
                    int64_t cur = (int64_t)c[(i0 - 1) * n + j - 1] - u[i0] - v[j];
                    if (cur < minv[j]) minv[j] = cur, way[j] = j0;
                    if (minv[j] < delta) delta = minv[j], j1 = j;
                }
            for (int j = 0; j <= n; j++)
                if (used[j]) u[p[j]] += delta, v[j] -= delta;
                else minv[j] -= delta;
            j0 = j1;
        } while (p[j0] != 0);
        do {
            int j1 = way[j0];
            p[j0] = p[j1];
            j0 = j1;
        } while (j0);
    }
    uint64_t bill = 0;
    for (int j = 1; j <= n; j++) bill += c[(p[j] - 1) * n + j - 1];
    return bill;
}

static uint64_t every(int n, const uint64_t *c) {
    std::vector<int> s(n);
    std::iota(s.begin(), s.end(), 0);
    uint64_t best = UINT64_MAX;
    do {
        uint64_t bill = 0;
        for (int x = 0; x < n; x++) bill += c[x * n + s[x]];
        best = std::min(best, bill);
    } while (std::next_permutation(s.begin(), s.end()));
    return best;
}

static std::mt19937_64 rng(1);

static void fill(std::vector<uint64_t> &c, int kind) {
    static const uint64_t tops[] = {0, 1, 2, 9, 1000, 1u << 30, MOST};
    for (auto &x : c) x = kind < 7 ? rng() % (tops[kind] + 1) : kind == 7 ? 5 : MOST - rng() % 3;
}

static double seconds(std::chrono::steady_clock::time_point a) {
    return std::chrono::duration<double>(std::chrono::steady_clock::now() - a).count();
}

int main() {
    long tables = 0;
    for (int round = 0; round < 60; round++)
        for (int n = 1; n <= 16; n++)
            for (int kind = 0; kind < 9; kind++) {
                std::vector<uint64_t> c(n * n);
                fill(c, kind);
                uint64_t mine = assignment_least_bill(n, c.data(), c.size()), other = hungarian(n, c.data());
                if (mine != other || (n <= 7 && mine != every(n, c.data()))) {
                    printf("bills differ: n = %d, kind %d: %llu and %llu\n", n, kind, (unsigned long long)mine, (unsigned long long)other);
                    return 1;
                }
                tables++;
            }
    printf("%ld tables: all bills agree\n", tables);

    const int count = 5000;
    std::vector<std::vector<uint64_t>> all(count, std::vector<uint64_t>(256));
    for (auto &c : all) {
        for (int k = 0; k < 256; k++) c[k] = ((rng() % (MOST >> 8)) << 8) + k;
        std::shuffle(c.begin(), c.end(), rng);
    }
    double best_mine = 1e9, best_other = 1e9;
    uint64_t sum = 0;
    for (int pass = 0; pass < 9; pass++) {
        auto a = std::chrono::steady_clock::now();
        for (auto &c : all) sum += assignment_least_bill(16, c.data(), 256);
        best_mine = std::min(best_mine, seconds(a));
        auto b = std::chrono::steady_clock::now();
        for (auto &c : all) sum -= hungarian(16, c.data());
        best_other = std::min(best_other, seconds(b));
    }
    if (sum != 0) return 1;
    double each = 1e9 / count;
    printf("16 boards: %.0f ns, C++ %.0f ns, ratio %.2f\n", best_mine * each, best_other * each, best_mine / best_other);
}
