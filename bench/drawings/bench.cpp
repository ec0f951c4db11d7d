// The same drawings as the program drawbench makes, in plain C++: the union of the splits, the blocks of each
// cell, the fit of layouts and shares, and the packages' elements.
#include <algorithm>
#include <array>
#include <cstdint>
#include <cstdio>
#include <cstdlib>
#include <vector>

struct Layout {
    int boards, rows, columns;
    std::vector<uint16_t> row_splits, column_splits;
    std::vector<uint8_t> owners;
    std::array<uint32_t, 16> totals{};
};

static Layout make(int shift, int step) {
    Layout l{16, 1024, 1024, {}, {}, {}, {}};
    l.row_splits.push_back(0);
    for (int k = 0; k < 31; k++) l.row_splits.push_back(32 * (k + 1) - shift % 32);
    l.row_splits.push_back(1024);
    l.column_splits = l.row_splits;
    for (int b = 0; b < 1024; b++) l.owners.push_back(b * step % 16);
    int across = l.column_splits.size() - 1;
    for (int b = 0; b < 1024; b++) {
        int i = b / across, j = b % across;
        l.totals[l.owners[b]] += (l.row_splits[i + 1] - l.row_splits[i]) * (l.column_splits[j + 1] - l.column_splits[j]);
    }
    return l;
}

struct Lines {
    int spans = 0;
    std::array<uint16_t, 64> cuts{};
    std::array<uint8_t, 64> target{}, source{};
};

static Lines merge(const std::vector<uint16_t> &a, const std::vector<uint16_t> &b) {
    Lines l;
    size_t i = 0, j = 0;
    while (i < a.size() && j < b.size()) {
        uint16_t next = std::min(a[i], b[j]);
        if (a[i] == next) i++;
        if (b[j] == next) j++;
        l.cuts[l.spans] = next;
        l.target[l.spans] = i - 1;
        l.source[l.spans] = j - 1;
        l.spans++;
    }
    l.spans--;
    return l;
}

struct Drawing {
    bool turned;
    Layout target, source;
    Lines rows, columns;
    std::array<uint32_t, 256> packages{};
};

static bool draw(char letter, const Layout &a, const Layout &b, uint32_t source_share, uint32_t target_share, Drawing &d) {
    if (letter != 'N' && letter != 'T' && letter != 'C') return false;
    d.turned = letter != 'N';
    if (b.rows != (d.turned ? a.columns : a.rows) || b.columns != (d.turned ? a.rows : a.columns) || a.boards != b.boards) return false;
    for (int p = 0; p < a.boards; p++)
        if (b.totals[p] > source_share || a.totals[p] > target_share) return false;
    d.rows = merge(a.row_splits, d.turned ? b.column_splits : b.row_splits);
    d.columns = merge(a.column_splits, d.turned ? b.row_splits : b.column_splits);
    d.packages.fill(0);
    int a_across = a.column_splits.size() - 1, b_across = b.column_splits.size() - 1;
    for (int i = 0; i < d.rows.spans; i++)
        for (int j = 0; j < d.columns.spans; j++) {
            int s = d.rows.source[i], t = d.columns.source[j];
            int sender = b.owners[(d.turned ? t : s) * b_across + (d.turned ? s : t)];
            int role = a.owners[d.rows.target[i] * a_across + d.columns.target[j]];
            d.packages[sender * 16 + role] += (d.rows.cuts[i + 1] - d.rows.cuts[i]) * (d.columns.cuts[j + 1] - d.columns.cuts[j]);
        }
    return true;
}

int main(int argc, char **argv) {
    uint32_t rounds = argc > 1 ? atoi(argv[1]) : 16;
    Layout target = make(0, 7), source = make(16, 5);
    static Drawing d;
    uint64_t sum = 0;
    for (uint32_t round = 0; round < rounds; round++) {
        if (!draw(round % 2 ? 'T' : 'N', target, source, 1048576, 1048576, d)) return 1;
        sum += d.packages[(round % 16) * 16 + 15 - round % 16];
    }
    printf("%u drawings, %llu elements\n", rounds, (unsigned long long)sum);
}
