// `TupleTable::revise` by hand, for bench/run: its loop over rows, and its loop over sets of rows. Arguments: the form,
// rows, calls.
// Prints a checksum and the nanoseconds of processor time that the calls took.
#include <cstdint>
#include <cstdio>
#include <cstdlib>
#include <cstring>
#include <ctime>
#include <vector>

using Column = std::vector<uint64_t>;

constexpr uint32_t VALUES = 6;

struct Table {
    size_t rows, width;     // a set of rows has `width` words
    Column columns[4];      // for each row its value as a word of one bit
    Column sets[4];         // for each value the set of the rows that have it
};

struct Support {
    uint64_t masks[4];
    uint32_t alive;
};

// With no branch, so that the compiler can take several rows a step.
__attribute__((noinline)) Support revise_plain(const Table &t, const uint64_t sets[4]) {
    const uint64_t *a = t.columns[0].data(), *b = t.columns[1].data(), *c = t.columns[2].data(), *d = t.columns[3].data();
    uint64_t s0 = sets[0], s1 = sets[1], s2 = sets[2], s3 = sets[3];
    uint64_t m0 = 0, m1 = 0, m2 = 0, m3 = 0, alive = 0;
    for (size_t i = 0; i < t.rows; i++) {
        uint64_t live = ((a[i] & s0) != 0) & ((b[i] & s1) != 0) & ((c[i] & s2) != 0) & ((d[i] & s3) != 0);
        uint64_t keep = -live;
        m0 |= a[i] & keep;
        m1 |= b[i] & keep;
        m2 |= c[i] & keep;
        m3 |= d[i] & keep;
        alive += live;
    }
    return {{m0, m1, m2, m3}, static_cast<uint32_t>(alive)};
}

// Each test stops at the first place that fails.
__attribute__((noinline)) Support revise_branches(const Table &t, const uint64_t sets[4]) {
    const uint64_t *a = t.columns[0].data(), *b = t.columns[1].data(), *c = t.columns[2].data(), *d = t.columns[3].data();
    Support found = {{0, 0, 0, 0}, 0};
    for (size_t i = 0; i < t.rows; i++) {
        if ((a[i] & sets[0]) && (b[i] & sets[1]) && (c[i] & sets[2]) && (d[i] & sets[3])) {
            found.masks[0] |= a[i];
            found.masks[1] |= b[i];
            found.masks[2] |= c[i];
            found.masks[3] |= d[i];
            found.alive++;
        }
    }
    return found;
}

// 64 rows a word: what the places have in common, each the union over its candidates; a value has support where its rows
// meet that.
__attribute__((noinline)) Support revise_sets(const Table &t, const uint64_t sets[4]) {
    static uint64_t alive[64], some[64];
    size_t width = t.width;
    for (size_t w = 0; w < width; w++) alive[w] = ~0ull;
    for (size_t c = 0; c < 4; c++) {
        for (size_t w = 0; w < width; w++) some[w] = 0;
        for (uint32_t v = 0; v < VALUES; v++)
            if (sets[c] >> v & 1) {
                const uint64_t *set = &t.sets[c][v * width];
                for (size_t w = 0; w < width; w++) some[w] |= set[w];
            }
        for (size_t w = 0; w < width; w++) alive[w] &= some[w];
    }
    Support found = {{0, 0, 0, 0}, 0};
    for (size_t c = 0; c < 4; c++)
        for (uint32_t v = 0; v < VALUES; v++) {
            if (!(sets[c] >> v & 1)) continue;
            const uint64_t *set = &t.sets[c][v * width];
            for (size_t w = 0; w < width; w++)
                if (set[w] & alive[w]) {
                    found.masks[c] |= 1ull << v;
                    break;
                }
        }
    for (size_t w = 0; w < width; w++) found.alive += __builtin_popcountll(alive[w]);
    return found;
}

static uint64_t cpu_time() {
    timespec t;
    clock_gettime(CLOCK_PROCESS_CPUTIME_ID, &t);
    return t.tv_sec * 1000000000ull + t.tv_nsec;
}

int main(int argc, char **argv) {
    if (argc != 4) return 2;
    auto revise = !strcmp(argv[1], "plain") ? revise_plain : !strcmp(argv[1], "sets") ? revise_sets : revise_branches;
    uint32_t rows = strtoul(argv[2], nullptr, 10), calls = strtoul(argv[3], nullptr, 10);
    if (rows > 4096) return 2;
    Table table = {rows, (rows + 63) / 64, {}, {}};
    for (Column &set : table.sets) set.assign(VALUES * table.width, 0);
    uint32_t x = 1;
    for (uint32_t i = 0; i < rows; i++) {
        for (size_t c = 0; c < 4; c++) {
            x = x * 1664525u + 1013904223u;
            uint32_t value = (x >> 16) % VALUES;
            table.columns[c].push_back(uint64_t(1) << value);
            table.sets[c][value * table.width + i / 64] |= uint64_t(1) << i % 64;
        }
    }
    uint64_t start = cpu_time();
    uint64_t total = 0;
    for (uint32_t k = 0; k < calls; k++) {
        uint64_t sets[4] = {63u ^ (k % 64), 63u ^ (k / 64 % 64), 62, 31};
        Support found = revise(table, sets);
        total = total * 31 + (found.masks[0] ^ found.masks[1] * 3 ^ found.masks[2] * 5 ^ found.masks[3] * 7 ^ found.alive);
    }
    uint64_t spent = cpu_time() - start;
    printf("%llu %llu\n", (unsigned long long)total, (unsigned long long)spent);
}
