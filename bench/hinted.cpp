// A plain checker of clausal proofs with hints in C++: what `wfcheck proof --lrat` is timed beside.
//
//   hinted FORMULA PROOF     whether the hints of each lemma lead to a conflict, down to the contradiction
//
// The formula is in DIMACS, the proof in the text form of LRAT; both are taken to be well formed. Clauses stand one behind another in one
// list, with a table from their ids to their places. True literals are marked with the number of the lemma, so nothing has to be undone.
// Where half of the list is of deleted clauses, it is compacted.
#include <cstring>

#include "reading.hpp"

using Id = uint64_t;

namespace {

const size_t kFewDead = 4096;

class Reader : public Text {
  public:
    using Text::Text;
    using Text::skip_comments;
    // whether a letter comes next, which is passed over
    bool letter(char wanted) {
        if (peek() != wanted) return false;
        getc_unlocked(file_);
        return true;
    }
    // the next number; false at the end of the text
    bool next(int64_t &number) {
        if (peek() == EOF) return false;
        int c = getc_unlocked(file_);
        const bool negative = c == '-';
        if (negative) c = getc_unlocked(file_);
        for (number = 0; c >= '0' && c <= '9'; c = getc_unlocked(file_)) number = 10 * number + c - '0';
        if (negative) number = -number;
        return true;
    }
    // numbers up to a 0
    template <class T> bool list(std::vector<T> &numbers) {
        numbers.clear();
        for (int64_t number; next(number);) {
            if (!number) return true;
            numbers.push_back(static_cast<T>(number));
        }
        return false;
    }
};

class Checker {
  public:
    explicit Checker(int variables) : marks_(2 * variables + 2, 0) {}

    void add(Id id, const Clause &c) {
        if (id >= places_.size()) places_.resize(id + 1 > 2 * places_.size() ? id + 1 : 2 * places_.size(), 0);
        places_[id] = arena_.size() + 1;
        arena_.push_back(c.size());
        arena_.insert(arena_.end(), c.begin(), c.end());
    }

    void remove(const std::vector<Id> &ids) {
        for (Id id : ids) {
            if (!is_kept(id)) continue;
            dead_ += arena_[places_[id] - 1] + 1;
            places_[id] = 0;
        }
        if (dead_ > kFewDead && 2 * dead_ > arena_.size()) compact();
    }

    // Whether the hints lead to a conflict once all literals of this clause are false.
    bool shows(const Clause &c, const std::vector<Id> &hints) {
        lemma_++;
        for (Literal l : c) {
            if (marks_[index(l)] == lemma_) return true;
            marks_[index(-l)] = lemma_;
        }
        for (Id id : hints) {
            if (!is_kept(id)) return false;
            const Literal *l = &arena_[places_[id]], *end = l + l[-1];
            Literal open = 0;
            for (; l < end; l++) {
                if (marks_[index(-*l)] == lemma_) continue;
                if (open) return false;
                open = *l;
            }
            if (!open) return true;
            marks_[index(open)] = lemma_;
        }
        return false;
    }

  private:
    bool is_kept(Id id) const { return id < places_.size() && places_[id]; }

    // ids ascend with their places
    void compact() {
        size_t to = 0;
        for (uint32_t &place : places_) {
            if (!place) continue;
            const size_t from = place - 1, many = arena_[from] + 1;
            memmove(&arena_[to], &arena_[from], many * sizeof(Literal));
            place = to + 1;
            to += many;
        }
        arena_.resize(to);
        dead_ = 0;
    }

    std::vector<Literal> arena_;     // clauses one behind another, each behind its length
    std::vector<uint32_t> places_;   // of the first literal of each; 0 where a clause is not kept
    std::vector<uint64_t> marks_;    // the lemma for which a literal is true
    uint64_t lemma_ = 0;
    size_t dead_ = 0;
};

}  // namespace

int main(int count, char **words) {
    if (count != 3) return 2;
    Reader formula(words[1]);
    Checker checker(formula.variables());
    Clause clause;
    for (Id id = 1; formula.list(clause); id++) checker.add(id, clause);
    Reader proof(words[2]);
    std::vector<Id> ids;
    int64_t id;
    for (proof.skip_comments(); proof.next(id); proof.skip_comments()) {
        if (proof.letter('d')) {
            proof.list(ids);
            checker.remove(ids);
            continue;
        }
        proof.list(clause);
        proof.list(ids);
        if (!checker.shows(clause, ids)) {
            puts("refused");
            return 1;
        }
        if (clause.empty()) {
            puts("accepted none");
            return 0;
        }
        checker.add(id, clause);
    }
    puts("no contradiction");
    return 1;
}
