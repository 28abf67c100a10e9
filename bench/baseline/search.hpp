// Boxes, their closing, and the search of one.
#pragma once
#include "caches.hpp"
#include <atomic>

struct Line {
    char kind;
    u8 process, value;
    u32 at;
};
using Lines = std::vector<Line>;

// Marks on executions, of which the next is found by two levels of bits.
class Marks {
    std::vector<u64> words, tops;

  public:
    explicit Marks(size_t count) : words(count / 64 + 1), tops(words.size() / 64 + 1) {}
    void mark(u32 n) {
        words[n / 64] |= 1ull << n % 64;
        tops[n / 4096] |= 1ull << n / 64 % 64;
    }
    void take(u32 n) { words[n / 64] &= ~(1ull << n % 64); }
    // The first that is marked from n on, or -1.
    int64_t next(u32 n) {
        size_t w = n / 64;
        if (w >= words.size()) return -1;
        if (u64 here = words[w] & ~0ull << n % 64) return w * 64 + first_of(here);
        for (size_t t = ++w / 64; t < tops.size(); w = ++t * 64)
            for (u64 left = tops[t] & ~0ull << w % 64; left; left &= left - 1) {
                size_t at = t * 64 + first_of(left);
                if (words[at]) return at * 64 + first_of(words[at]);
                tops[t] &= ~(left & -left);
            }
        return -1;
    }
    void clear() {
        for (int64_t n = next(0); n >= 0; n = next(n)) words[n / 64] = 0;
    }
};

enum class Found { map, none, stopped };

class Search {
    struct Change { u32 point; Set before; };
    struct Frame { u32 point; Set left; size_t length; };

    const Problem& problem;
    Caches& caches;
    bool keeps_lines;
    std::vector<Change> trail;
    std::vector<Frame> frames;
    Marks marks;

    void say(Line line) {
        count++;
        if (keeps_lines) lines.push_back(line);
    }
    void change(u32 point, Set set) {
        trail.push_back({point, sets[point]});
        sets[point] = set;
        for (u32 i = problem.starts[point]; i < problem.starts[point + 1]; i++) marks.mark(problem.users[i]);
    }
    // What the tuples support at each place.
    const Set* supported(const Execution& e, u32 places) {
        Set candidates[4];
        for (u32 c = 0; c < places; c++) candidates[c] = sets[e.points[c]];
        return caches.supported(e.rule, places, candidates);
    }
    // False where a point was emptied.
    bool revise(u32 number) {
        const Execution& e = problem.complex.executions[number];
        const Simplex& simplex = problem.task.rules[e.rule].simplex;
        const Set* found = supported(e, simplex.size);
        for (u32 c = 0; c < simplex.size; c++) {
            u32 v = e.points[c];
            Set lost = sets[v] & ~found[c];
            if (!lost) continue;
            change(v, sets[v] & found[c]);
            for (; lost; lost &= lost - 1) say({'p', simplex.process(c), (u8)first_of(lost), number});
            if (!sets[v]) return say({'z', 0, 0, v}), false;
        }
        return true;
    }
    // The next box to search, or false where there is none.
    bool go_on() {
        if (frames.empty()) return false;
        Frame& f = frames.back();
        undo(f.length);
        set(f.point, f.left);
        f.left &= f.left - 1;
        open_from = f.point;
        if (!f.left) frames.pop_back();
        return true;
    }

  public:
    std::vector<Set> sets;
    Lines lines;
    size_t count = 0;   // of lines, kept or not
    u32 open_from = 0;  // no point before this one has two candidates

    // The root box.
    Search(const Problem& p, Caches& known, bool keeps)
        : problem(p), caches(known), keeps_lines(keeps), marks(p.complex.executions.size()), sets(p.complex.points, p.task.values) {
        for (u32 e = 0; e < p.complex.executions.size(); e++) marks.mark(e);
    }
    // A box that is closed.
    Search(const Problem& p, Caches& known, bool keeps, std::vector<Set> closed)
        : problem(p), caches(known), keeps_lines(keeps), marks(p.complex.executions.size()), sets(std::move(closed)) {}

    // Sweep by sweep through the executions that are marked. False where a point was emptied.
    bool close() {
        for (int64_t e = marks.next(0); e >= 0; e = marks.next(0))
            for (; e >= 0; e = marks.next(e + 1)) {
                marks.take(e);
                if (!revise(e)) return false;
            }
        return true;
    }
    // The first point with two candidates or more; the number of points where there is none.
    u32 first_open() {
        while (open_from < sets.size() && !has_two(sets[open_from])) open_from++;
        return open_from;
    }
    // Leaves a point the least of these values.
    void set(u32 point, Set values) { change(point, values & -values); }
    size_t length() const { return trail.size(); }
    void undo(size_t length) {
        for (; trail.size() > length; trail.pop_back()) sets[trail.back().point] = trail.back().before;
        marks.clear();
    }
    // Whether a point of the root has no candidate from the start; its line is then all.
    bool is_empty() {
        for (u32 v = 0; v < sets.size(); v++)
            if (!sets[v]) return say({'z', 0, 0, v}), true;
        return false;
    }
    // The search is stopped where the least branch with a map is below its own.
    Found run(const std::atomic<u32>* least = nullptr, u32 own = 0) {
        for (;;) {
            if (least && least->load(std::memory_order_relaxed) < own) return Found::stopped;
            if (close()) {
                u32 point = first_open();
                if (point == sets.size()) return Found::map;
                say({'b', 0, 0, point});
                Set left = sets[point] & (sets[point] - 1);
                frames.push_back({point, left, trail.size()});
                set(point, sets[point]);
            } else if (!go_on()) {
                return Found::none;
            }
        }
    }
};
