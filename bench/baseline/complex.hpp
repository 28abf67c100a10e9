// The protocol complex of a task after some rounds, and the problem on it.
#pragma once
#include "task.hpp"

// A process, and its value, or the numbers of the views that it saw.
struct View {
    u8 process, count;  // an input has count 0
    std::array<u32, 4> ids;
    bool operator==(const View& v) const { return process == v.process && count == v.count && ids == v.ids; }
};

static u64 mixed(u64 x) {
    x *= 0x9e3779b97f4a7c15;
    return x ^ x >> 32;
}

static u64 hash_of(const View& v) {
    u64 first = v.ids[0] | (u64)v.ids[1] << 32, second = v.ids[2] | (u64)v.ids[3] << 32;
    return mixed(mixed(first ^ v.process ^ (u64)v.count << 60) + second);
}

static u64 hash_of(u64 key) { return mixed(key); }

// Keys by number, found by open addressing.
template <class Key> class Numbers {
    std::vector<u32> slots = std::vector<u32>(64, 0);  // a key's number plus 1, or 0

    size_t slot_of(const Key& key) const {
        size_t at = hash_of(key) & (slots.size() - 1);
        while (slots[at] && !(keys[slots[at] - 1] == key)) at = (at + 1) & (slots.size() - 1);
        return at;
    }
    void grow() {
        slots.assign(2 * slots.size(), 0);
        for (u32 n = 0; n < keys.size(); n++) slots[slot_of(keys[n])] = n + 1;
    }

  public:
    std::vector<Key> keys;

    // The key's number, and whether it is new.
    std::pair<u32, bool> number(const Key& key) {
        size_t at = slot_of(key);
        if (slots[at]) return {slots[at] - 1, false};
        keys.push_back(key);
        slots[at] = keys.size();
        if (2 * keys.size() > slots.size()) grow();
        return {keys.size() - 1, true};
    }
};

class Views {
    Numbers<View> views;
    std::vector<u8> processes;   // those that occur in a view, at any depth
    Numbers<u64> renamed_views;  // a view and a set of processes, and what it is with them renamed to their ranks
    std::vector<u32> renamed_to;

    u32 number(const View& v, u8 all) {
        auto [n, is_new] = views.number(v);
        if (is_new) processes.push_back(all);
        return n;
    }
    u32 renamed(u32 id, u8 set) {
        View v = views.keys[id];
        u64 key = (u64)id << 4 | set;
        auto [n, is_new] = renamed_views.number(key);
        if (!is_new) return renamed_to[n];
        renamed_to.push_back(0);
        v.process = __builtin_popcount(set & ((1u << v.process) - 1));
        u8 all = 1 << v.process;
        for (u32 i = 0; i < v.count; i++) {
            v.ids[i] = renamed(v.ids[i], set);
            all |= processes[v.ids[i]];
        }
        return renamed_to[n] = number(v, all);
    }

  public:
    u32 input(u8 process, u8 value) { return number({process, 0, {value}}, 1 << process); }
    u32 snapshot(u8 process, const u32* ids, u32 count) {
        View v{process, (u8)count, {}};
        u8 all = 1 << process;
        for (u32 i = 0; i < count; i++) all |= processes[v.ids[i] = ids[i]];
        return number(v, all);
    }
    // With each process replaced by its rank among those that occur.
    u32 normal(u32 id) { return renamed(id, processes[id]); }
};

// For each process of a word the places of those that it sees.
struct Word { u8 count[4], seen[4][4]; };

static std::vector<Word> words(u32 n) {
    std::vector<Word> out;
    u32 all = 1;
    for (u32 i = 0; i < n; i++) all *= n;
    for (u32 k = 0; k < all; k++) {
        u32 block[4], rest = k, used = 0;
        for (u32 i = n; i-- > 0; rest /= n) used |= 1u << (block[i] = rest % n);
        if (used & (used + 1)) continue;
        Word w{};
        for (u32 i = 0; i < n; i++)
            for (u32 j = 0; j < n; j++)
                if (block[j] <= block[i]) w.seen[i][w.count[i]++] = j;
        out.push_back(w);
    }
    return out;
}

struct Execution { u32 rule, points[4]; };

struct Complex {
    u32 points = 0;
    std::vector<Execution> executions;
};

class Builder {
    static constexpr u32 none = ~0u;
    const Task& task;
    u32 rounds;
    Views views;
    std::vector<u32> points;  // of each view its point, or none
    Complex complex;

    u32 point_of(u32 id) {
        if (task.symmetric) id = views.normal(id);
        if (id >= points.size()) points.resize(std::max<size_t>(id + 1, 2 * points.size()), none);
        if (points[id] == none) points[id] = complex.points++;
        return points[id];
    }
    void walk(u32 rule, const u32* now, const std::vector<Word>& all, u32 left) {
        const Simplex& s = task.rules[rule].simplex;
        if (left == 0) {
            Execution e{rule, {}};
            for (u32 i = 0; i < s.size; i++) e.points[i] = point_of(now[i]);
            complex.executions.push_back(e);
            return;
        }
        for (const Word& w : all) {
            u32 next[4], seen[4];
            for (u32 i = 0; i < s.size; i++) {
                for (u32 j = 0; j < w.count[i]; j++) seen[j] = now[w.seen[i][j]];
                next[i] = views.snapshot(s.process(i), seen, w.count[i]);
            }
            walk(rule, next, all, left - 1);
        }
    }

  public:
    Builder(const Task& t, u32 count) : task(t), rounds(count) {}
    Complex build() {
        for (u32 r = 0; r < task.rules.size(); r++) {
            const Simplex& s = task.rules[r].simplex;
            u32 start[4];
            for (u32 i = 0; i < s.size; i++) start[i] = views.input(s.process(i), s.vertices[i] & 255);
            walk(r, start, words(s.size), rounds);
        }
        return std::move(complex);
    }
};

// The executions in which each point stands, and the table of each rule.
struct Problem {
    const Task& task;
    const Complex& complex;
    std::vector<Table> tables;
    std::vector<u32> starts, users;  // of each point its executions, ascending

    Problem(const Task& t, const Complex& c) : task(t), complex(c) {
        for (auto& rule : task.rules) tables.emplace_back(rule);
        starts.assign(c.points + 1, 0);
        for (auto& e : c.executions)
            for (u32 i = 0; i < size(e); i++) starts[e.points[i] + 1]++;
        for (u32 v = 0; v < c.points; v++) starts[v + 1] += starts[v];
        users.resize(starts[c.points]);
        auto next = starts;
        for (u32 n = 0; n < c.executions.size(); n++)
            for (u32 i = 0; i < size(c.executions[n]); i++) users[next[c.executions[n].points[i]]++] = n;
    }
    u32 size(const Execution& e) const { return task.rules[e.rule].simplex.size; }
};
