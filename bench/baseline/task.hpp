// Tasks, and the tables of their tuples.
#pragma once
#include <algorithm>
#include <array>
#include <cctype>
#include <cstdint>
#include <cstdlib>
#include <cstring>
#include <string>
#include <vector>

using u8 = uint8_t;
using u16 = uint16_t;
using u32 = uint32_t;
using u64 = uint64_t;

// A set of values, all below 64.
using Set = u64;

static int first_of(u64 set) { return __builtin_ctzll(set); }
static bool has_two(u64 set) { return set & (set - 1); }

struct Simplex {
    u32 size = 0;
    std::array<u16, 4> vertices{};  // process, and in the low byte its value, by ascending process
    u8 process(u32 place) const { return vertices[place] >> 8; }
    bool operator<(const Simplex& other) const {
        return size != other.size ? size < other.size : vertices < other.vertices;
    }
};

// The tuples of an input simplex. A row has the first place's value in its high byte.
struct Rule {
    Simplex simplex;
    std::vector<u32> rows;  // ascending, each once
};

static u32 row_value(u32 row, u32 place) { return row >> (24 - 8 * place) & 255; }

struct Task {
    u32 processes = 0;
    bool symmetric = false;
    Set values = 0;
    std::vector<Rule> rules;  // one for each input simplex, by size and then as lists
};

// Reads a text that is known to be a task, without making a tree of it.
struct TaskReader {
    const char* at;

    bool take(char c) {
        while (isspace((unsigned char)*at)) at++;
        if (*at != c) return false;
        at++;
        return true;
    }
    u32 number() {
        while (isspace((unsigned char)*at)) at++;
        u32 n = 0;
        for (; isdigit((unsigned char)*at); at++) n = 10 * n + (*at - '0');
        return n;
    }
    bool boolean() {
        bool is_true = take('t');
        while (isalpha((unsigned char)*at)) at++;
        return is_true;
    }
    template <class Item> void list(Item item) {
        take('[');
        while (!take(']')) {
            item();
            take(',');
        }
    }
    template <class Member> void object(Member member) {
        take('{');
        while (!take('}')) {
            take('"');
            const char* from = at;
            while (*at != '"') at++;
            std::string key(from, at++);
            take(':');
            member(key);
            take(',');
        }
    }
    Simplex simplex() {
        Simplex s;
        list([&] {
            u32 pair[2], count = 0;
            list([&] { pair[count++] = number(); });
            s.vertices[s.size++] = pair[0] << 8 | pair[1];
        });
        return s;
    }
    Rule rule() {
        Rule r;
        object([&](const std::string& key) {
            if (key == "in") r.simplex = simplex();
            else list([&] {
                u32 row = 0, shift = 32;
                list([&] { row |= number() << (shift -= 8); });
                r.rows.push_back(row);
            });
        });
        std::sort(r.rows.begin(), r.rows.end());
        r.rows.erase(std::unique(r.rows.begin(), r.rows.end()), r.rows.end());
        return r;
    }
    Task task() {
        Task t;
        object([&](const std::string& key) {
            if (key == "processes") t.processes = number();
            else if (key == "symmetric") t.symmetric = boolean();
            else if (key == "inputs") list([&] { simplex(); });
            else if (key == "outputs") list([&] {
                Simplex s = simplex();
                for (u32 i = 0; i < s.size; i++) t.values |= 1ull << (s.vertices[i] & 255);
            });
            else if (key == "delta") list([&] { t.rules.push_back(rule()); });
            else number();
        });
        // there is an entry for each input simplex
        std::sort(t.rules.begin(), t.rules.end(), [](const Rule& a, const Rule& b) { return a.simplex < b.simplex; });
        return t;
    }
};

// A rule's tuples by columns: for each place and value the set of the rows that have it there, cut into blocks of 1, 2, 4
// or 8 words, so that what is done with a block stays in registers.
class Table {
    u32 places, block_words, blocks;
    Set occurring[4] = {};
    std::vector<u64> sets[4];  // one value after another, each of all blocks
    u16 ranks[4][64];          // a value's rank among those that occur

    const u64* rows_with(u32 place, u32 value, u32 block) const {
        return &sets[place][(ranks[place][value] * blocks + block) * block_words];
    }
    template <int W> void join(u32 place, Set among, u32 block, u64* live) const {
        u64 joined[W] = {};
        for (; among; among &= among - 1) {
            const u64* rows = rows_with(place, first_of(among), block);
            for (int w = 0; w < W; w++) joined[w] |= rows[w];
        }
        for (int w = 0; w < W; w++) live[w] &= joined[w];
    }
    template <int W> static bool meet(const u64* rows, const u64* live) {
        u64 both = 0;
        for (int w = 0; w < W; w++) both |= rows[w] & live[w];
        return both;
    }
    template <int W> void revise_by(const Set* candidates, Set* supported) const {
        Set wanted[4], unmet[4], some = 0;
        for (u32 c = 0; c < places; c++) some |= wanted[c] = unmet[c] = candidates[c] & occurring[c];
        for (u32 b = 0; b < blocks && some; b++) {
            u64 live[W];
            memset(live, 255, sizeof live);
            for (u32 c = 0; c < places; c++) join<W>(c, wanted[c], b, live);
            some = 0;
            for (u32 c = 0; c < places; c++) {
                for (Set left = unmet[c]; left; left &= left - 1)
                    if (meet<W>(rows_with(c, first_of(left), b), live)) unmet[c] &= ~(left & -left);
                some |= unmet[c];
            }
        }
        for (u32 c = 0; c < places; c++) supported[c] = wanted[c] & ~unmet[c];
    }
    template <int W> bool supports_by(const Set* candidates, u32 place, u32 value) const {
        for (u32 b = 0; b < blocks; b++) {
            u64 live[W];
            memcpy(live, rows_with(place, value, b), sizeof live);
            for (u32 c = 0; c < places; c++)
                if (c != place) join<W>(c, candidates[c] & occurring[c], b, live);
            if (meet<W>(live, live)) return true;
        }
        return false;
    }

  public:
    explicit Table(const Rule& rule) : places(rule.simplex.size) {
        size_t count = rule.rows.size();
        block_words = count <= 64 ? 1 : count <= 128 ? 2 : count <= 256 ? 4 : 8;
        blocks = (count + 64 * block_words - 1) / (64 * block_words);
        for (u32 c = 0; c < places; c++) {
            for (u32 row : rule.rows) occurring[c] |= 1ull << row_value(row, c);
            u32 rank = 0;
            for (Set left = occurring[c]; left; left &= left - 1) ranks[c][first_of(left)] = rank++;
            sets[c].assign((size_t)rank * blocks * block_words, 0);
            for (size_t i = 0; i < count; i++)
                sets[c][(size_t)ranks[c][row_value(rule.rows[i], c)] * blocks * block_words + i / 64] |= 1ull << i % 64;
        }
    }
    // The candidates that some tuple has whose values are all candidates, for each place.
    void revise(const Set* candidates, Set* supported) const {
        switch (block_words) {
            case 1: return revise_by<1>(candidates, supported);
            case 2: return revise_by<2>(candidates, supported);
            case 4: return revise_by<4>(candidates, supported);
            default: return revise_by<8>(candidates, supported);
        }
    }
    // The values that some tuple has at a place.
    Set occurs(u32 place) const { return occurring[place]; }
    // Whether the value would be among those if it were a candidate at its place.
    bool supports(const Set* candidates, u32 place, u32 value) const {
        if (!(occurring[place] >> value & 1)) return false;
        switch (block_words) {
            case 1: return supports_by<1>(candidates, place, value);
            case 2: return supports_by<2>(candidates, place, value);
            case 4: return supports_by<4>(candidates, place, value);
            default: return supports_by<8>(candidates, place, value);
        }
    }
};
