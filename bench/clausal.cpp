// A plain forward checker of clausal proofs in C++: what `wfcheck proof` is timed beside.
//
//   clausal FORMULA PROOF     whether unit propagation shows each lemma of the proof, down to the contradiction
//
// The formula is in DIMACS, the proof in the text form of DRAT; both are taken to be well formed. Two literals of each clause are
// watched, with another of its literals beside each watch, which mostly spares looking at the clause. A deletion finds its clause by a
// hash of its literals, in whatever order; one that forces a literal is kept, as `drat-trim` does.
#include <algorithm>
#include <unordered_map>

#include "reading.hpp"

namespace {

const Literal kDelete = 1 << 30, kDeleted = -1;

class Reader : public Text {
  public:
    using Text::Text;
    // the next literal, 0 at the end of a clause, kDelete before one that is deleted; false at the end of the text
    bool next(Literal &l) {
        int c = getc_unlocked(file_);
        while (c == ' ' || c == '\n') c = getc_unlocked(file_);
        if (c == EOF) return false;
        if (c == 'd') { l = kDelete; return true; }
        const bool negative = c == '-';
        if (negative) c = getc_unlocked(file_);
        for (l = 0; c >= '0' && c <= '9'; c = getc_unlocked(file_)) l = 10 * l + c - '0';
        if (negative) l = -l;
        return true;
    }
};

struct Watch { uint32_t clause; Literal other; };

class Checker {
  public:
    explicit Checker(int variables) : watches_(2 * variables + 2), value_(2 * variables + 2, 0) {}

    // Keeps a clause, and what it forces. False where that is a contradiction.
    bool add(Clause c) {
        std::sort(c.begin(), c.end());
        c.erase(std::unique(c.begin(), c.end()), c.end());
        size_t front = 0;  // the literals that are not false come first
        for (size_t i = 0; i < c.size() && front < 2; i++)
            if (value_[index(c[i])] >= 0) std::swap(c[front++], c[i]);
        if (front == 0) return false;
        if (c.size() > 1) keep(c);
        if (front == 1 && value_[index(c[0])] == 0) { set(c[0]); return propagate(); }
        return true;
    }

    // Whether unit propagation finds a false clause once all literals of this one are false.
    bool shows(const Clause &c) {
        const size_t base = trail_.size();
        bool conflict = false;
        for (Literal l : c) {
            if (value_[index(l)] > 0) { conflict = true; break; }
            if (value_[index(l)] == 0) set(-l);
        }
        conflict = conflict || !propagate();
        for (; trail_.size() > base; trail_.pop_back()) value_[index(trail_.back())] = value_[index(-trail_.back())] = 0;
        head_ = base;
        return conflict;
    }

    void remove(Clause c) {
        std::sort(c.begin(), c.end());
        auto [first, last] = by_hash_.equal_range(hash(c));
        for (; first != last; ++first) {
            Literal *at = &arena_[first->second];
            if (at[0] != static_cast<int>(c.size())) continue;
            Clause kept(at + 1, at + 1 + at[0]);
            std::sort(kept.begin(), kept.end());
            if (kept != c) continue;
            if (!forces(c)) { at[0] = kDeleted; by_hash_.erase(first); }
            return;
        }
    }

  private:
    static uint64_t hash(const Clause &c) {
        uint64_t sum = 0, mixed = 0;
        for (Literal l : c) sum += index(l), mixed ^= index(l) * 0x9E3779B97F4A7C15ull;
        return sum * 0xff51afd7ed558ccdull + mixed;
    }

    void set(Literal l) { value_[index(l)] = 1; value_[index(-l)] = -1; trail_.push_back(l); }

    void keep(const Clause &c) {
        const uint32_t at = arena_.size();
        arena_.push_back(c.size());
        arena_.insert(arena_.end(), c.begin(), c.end());
        by_hash_.emplace(hash(c), at);
        watches_[index(c[0])].push_back({at, c[1]});
        watches_[index(c[1])].push_back({at, c[0]});
    }

    // one literal is true, and all others are false
    bool forces(const Clause &c) const {
        int open = 0, holds = 0;
        for (Literal l : c) open += value_[index(l)] >= 0, holds += value_[index(l)] > 0;
        return open == 1 && holds == 1;
    }

    // False where a clause is false.
    bool propagate() {
        while (head_ < trail_.size()) {
            const Literal lost = -trail_[head_++];
            auto &list = watches_[index(lost)];
            size_t i = 0, j = 0;
            bool conflict = false;
            while (i < list.size() && !conflict) {
                const Watch w = list[i++];
                if (value_[index(w.other)] > 0) { list[j++] = w; continue; }
                Literal *at = &arena_[w.clause], *l = at + 1;
                if (at[0] == kDeleted) continue;
                if (l[0] == lost) std::swap(l[0], l[1]);
                if (value_[index(l[0])] > 0) { list[j++] = {w.clause, l[0]}; continue; }
                int k = 2;
                while (k < at[0] && value_[index(l[k])] < 0) k++;
                if (k < at[0]) {
                    std::swap(l[1], l[k]);
                    watches_[index(l[1])].push_back({w.clause, l[0]});
                    continue;
                }
                list[j++] = {w.clause, l[0]};
                if (value_[index(l[0])] < 0) conflict = true;
                else set(l[0]);
            }
            while (i < list.size()) list[j++] = list[i++];
            list.resize(j);
            if (conflict) return false;
        }
        return true;
    }

    std::vector<Literal> arena_;  // clauses one behind another, each behind its length
    std::vector<std::vector<Watch>> watches_;
    std::vector<signed char> value_;
    std::vector<Literal> trail_;
    size_t head_ = 0;
    std::unordered_multimap<uint64_t, uint32_t> by_hash_;
};

}  // namespace

int main(int count, char **words) {
    if (count != 3) return 2;
    Reader formula(words[1]);
    Checker checker(formula.variables());
    Clause clause;
    Literal l;
    bool refuted = false, deletes = false;
    while (!refuted && formula.next(l)) {
        if (l) { clause.push_back(l); continue; }
        refuted = !checker.add(clause);
        clause.clear();
    }
    clause.clear();
    Reader proof(words[2]);
    while (!refuted && proof.next(l)) {
        if (l == kDelete) { deletes = true; continue; }
        if (l) { clause.push_back(l); continue; }
        if (deletes) {
            checker.remove(clause);
            deletes = false;
        } else if (!checker.shows(clause)) {
            puts("refused");
            return 1;
        } else {
            refuted = !checker.add(clause);
        }
        clause.clear();
    }
    puts(refuted ? "accepted none" : "no contradiction");
    return refuted ? 0 : 1;
}
