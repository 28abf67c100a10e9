// What tables answered before: all answers of a small one, by the bits of the candidates, and those of others in a memo.
#pragma once
#include "complex.hpp"
#ifdef __BMI2__
#include <immintrin.h>
#endif

// The bits of a set at the places of a mask's bits, side by side, and back.
static u32 packed(Set set, Set mask) {
#ifdef __BMI2__
    return _pext_u64(set, mask);
#else
    u32 out = 0;
    for (u32 at = 0; mask; mask &= mask - 1, at++) out |= (u32)(set >> first_of(mask) & 1) << at;
    return out;
#endif
}
static Set spread(u64 bits, Set mask) {
#ifdef __BMI2__
    return _pdep_u64(bits, mask);
#else
    Set out = 0;
    for (; mask; mask &= mask - 1, bits >>= 1) out |= (bits & 1) << first_of(mask);
    return out;
#endif
}

// A thread has one of its own, over all the boxes that it searches.
class Caches {
    static constexpr u32 most_bits = 16, unknown = ~0u;
    static constexpr size_t first_size = 64, most_size = 1 << 17;
    struct Small { u32 bits = 0, shifts[4] = {}; std::vector<u32> answers; };
    struct Known { u32 rule = unknown; Set candidates[4] = {}, supported[4] = {}; };

    const Problem& problem;
    std::vector<Small> small;  // of each rule
    std::vector<Known> memo;
    size_t misses = 0;         // since it has this size
    Set found[4];

    const Set* looked_up(u32 rule, u32 places, const Set* candidates) {
        const Table& table = problem.tables[rule];
        Small& s = small[rule];
        u32 at = 0;
        for (u32 c = 0; c < places; c++) at |= packed(candidates[c], table.occurs(c)) << s.shifts[c];
        if (s.answers.empty()) s.answers.assign((size_t)1 << s.bits, unknown);
        u32& answer = s.answers[at];
        if (answer == unknown) {
            table.revise(candidates, found);
            answer = 0;
            for (u32 c = 0; c < places; c++) answer |= packed(found[c], table.occurs(c)) << s.shifts[c];
            return found;
        }
        for (u32 c = 0; c < places; c++) found[c] = spread(answer >> s.shifts[c], table.occurs(c));
        return found;
    }
    Known& place(u32 rule, u32 places, const Set* candidates) {
        u64 hash = mixed(rule + 1);
        for (u32 c = 0; c < places; c++) hash = mixed(hash ^ candidates[c]);
        return memo[hash >> 20 & (memo.size() - 1)];
    }
    void grow() {
        std::vector<Known> old(memo.empty() ? first_size : std::min(4 * memo.size(), most_size));
        old.swap(memo);
        misses = 0;
        for (const Known& known : old)
            if (known.rule != unknown) place(known.rule, problem.task.rules[known.rule].simplex.size, known.candidates) = known;
    }
    const Set* remembered(u32 rule, u32 places, const Set* candidates) {
        if (memo.empty() || (misses > memo.size() / 4 && memo.size() < most_size)) grow();
        Known& known = place(rule, places, candidates);
        bool is_same = known.rule == rule;
        for (u32 c = 0; c < places; c++) is_same &= known.candidates[c] == candidates[c];
        if (is_same) return known.supported;
        misses++;
        known.rule = rule;
        std::copy(candidates, candidates + places, known.candidates);
        problem.tables[rule].revise(candidates, known.supported);
        return known.supported;
    }

  public:
    explicit Caches(const Problem& p) : problem(p), small(p.tables.size()) {
        for (u32 rule = 0; rule < small.size(); rule++)
            for (u32 c = 0; c < p.task.rules[rule].simplex.size; c++) {
                small[rule].shifts[c] = small[rule].bits;
                small[rule].bits += __builtin_popcountll(p.tables[rule].occurs(c));
            }
    }
    // What the tuples of a rule support at each place.
    const Set* supported(u32 rule, u32 places, const Set* candidates) {
        return small[rule].bits <= most_bits ? looked_up(rule, places, candidates) : remembered(rule, places, candidates);
    }
};
