// A plain finder of obstructions in C++: what `wfcheck obstruction` is timed beside.
//
//   finder COVERS TASK ..     for each task file 1 if a tree is found, else 0, and then the seconds that all searches took together
//
// The tasks are taken to be right, not symmetric, and written without blanks, `delta` first. A tree is looked for as the program does:
// a task at hand without an integer solution is a leaf, else all splits are made, else the cases of a simplex with the fewest parts are
// gone through, else covers of two sheets are tried, at most so many above one another. Tuples that nothing extends are dropped first.
#include <algorithm>
#include <chrono>
#include <cstdint>
#include <cstdio>
#include <cstdlib>
#include <fstream>
#include <functional>
#include <iterator>
#include <map>
#include <numeric>
#include <set>
#include <string>
#include <vector>

namespace {

using List = std::vector<int>;
using Tuples = std::vector<uint64_t>;  // a value in each 16 bits
using Row = std::vector<int64_t>;

const int kBits = 16, kMostCovers = 64, kMostLevels = 64;
const size_t kMostTuples = 1000000;
const int64_t kLargest = 1 << 30;

int at(uint64_t t, int place) { return t >> kBits * place & 65535; }

uint64_t put(uint64_t t, int place, int value) { return (t & ~(65535ull << kBits * place)) | uint64_t(value) << kBits * place; }

uint64_t without(uint64_t t, int place) {
    const uint64_t low = t & ((1ull << kBits * place) - 1), high = place == 3 ? 0 : t >> kBits * (place + 1);
    return low | high << kBits * place;
}

void once(Tuples &tuples) {
    std::sort(tuples.begin(), tuples.end());
    tuples.erase(std::unique(tuples.begin(), tuples.end()), tuples.end());
}

// trees of numbers, each with the least as its root
class Trees {
  public:
    explicit Trees(size_t n) : above_(n) { std::iota(above_.begin(), above_.end(), 0); }
    int root(int a) { return above_[a] == a ? a : above_[a] = root(above_[a]); }
    bool join(int a, int b) {
        a = root(a), b = root(b);
        above_[std::max(a, b)] = std::min(a, b);
        return a != b;
    }

  private:
    List above_;
};

struct Complex {
    std::vector<List> simplices;  // numbers of vertices, by size and then as lists
    std::vector<List> facets;     // for each simplex and place the simplex without it, or -1
};

struct Task {
    const Complex *complex;
    std::vector<Tuples> allowed;
    int fresh;
    size_t size() const {
        return std::accumulate(allowed.begin(), allowed.end(), size_t(0), [](size_t n, const Tuples &d) { return n + d.size(); });
    }
    bool has_empty() const { return std::any_of(allowed.begin(), allowed.end(), [](const Tuples &d) { return d.empty(); }); }
};

// Drops the tuples that no tuple of a larger simplex extends.
void prune(Task &task) {
    for (int k = task.complex->simplices.size() - 1; k >= 0; k--)
        for (size_t i = 0; task.complex->simplices[k].size() > 1 && i < task.complex->simplices[k].size(); i++) {
            Tuples &face = task.allowed[task.complex->facets[k][i]], there, kept;
            for (uint64_t t : task.allowed[k]) there.push_back(without(t, i));
            once(there);
            std::set_intersection(face.begin(), face.end(), there.begin(), there.end(), std::back_inserter(kept));
            face = kept;
        }
}

// ---- leaves

using Sparse = std::vector<std::pair<int, int>>;

// The equations of a task, whose last unknown is the constant.
std::vector<Sparse> equations(const Task &task, int &constant) {
    List base;
    constant = 0;
    for (auto &d : task.allowed) base.push_back(constant), constant += d.size();
    std::vector<Sparse> rows;
    for (size_t k = 0; k < task.allowed.size(); k++)
        for (size_t i = 0; i < task.complex->simplices[k].size(); i++) {
            const int face = task.complex->facets[k][i];
            std::map<uint64_t, Sparse> by;
            for (size_t j = 0; j < task.allowed[k].size(); j++) by[without(task.allowed[k][j], i)].push_back({base[k] + j, 1});
            if (face < 0) by[0].push_back({constant, -1});
            for (size_t j = 0; face >= 0 && j < task.allowed[face].size(); j++) by[task.allowed[face][j]].push_back({base[face] + j, -1});
            for (auto &it : by) rows.push_back(it.second);
        }
    return rows;
}

// Whether the equations contradict one another modulo 2.
bool contradict(const std::vector<Sparse> &rows, int constant) {
    const size_t words = constant / 64 + 1;
    std::vector<std::vector<uint64_t>> kept;
    List pivot(constant + 1, -1);
    for (auto &sparse : rows) {
        std::vector<uint64_t> row(words);
        for (auto &it : sparse) row[it.first / 64] ^= 1ull << it.first % 64;
        for (size_t w = 0; w < words; w++)
            while (row[w]) {
                const int unknown = w * 64 + __builtin_ctzll(row[w]);
                if (unknown == constant) return true;
                if (pivot[unknown] < 0) { pivot[unknown] = kept.size(), kept.push_back(row), w = words; break; }
                for (size_t x = w; x < words; x++) row[x] ^= kept[pivot[unknown]][x];
            }
    }
    return false;
}

// Whole numbers, by pivots of 1 and then by what is left.
class Integers {
  public:
    Integers(const std::vector<Sparse> &rows, int constant) : rows_(rows), constant_(constant) {}

    // whether the equations have no solution; false also if numbers grow too large
    bool contradict() {
        for (auto &sparse : rows_) {
            Row row(constant_ + 1);
            for (auto &it : sparse) row[it.first] += it.second;
            if (int found = take(row)) return found > 0;
        }
        for (size_t before = kept_.size() + 1; before != kept_.size();) {
            before = kept_.size();
            std::vector<Row> again;
            again.swap(left_);
            for (auto &row : again)
                if (int found = take(row)) return found > 0;
        }
        return smith();
    }

  private:
    // 1 for a contradiction, -1 where a number is too large
    int take(Row &row) {
        for (size_t k = 0; k < kept_.size(); k++)
            if (const int64_t times = row[pivots_[k]])
                for (auto &it : kept_[k])
                    if (std::abs(row[it.first] -= times * it.second) > kLargest) return -1;
        int unit = -1;
        bool some = false;
        for (int j = 0; j < constant_ && unit < 0; j++) some |= row[j] != 0, unit = std::abs(row[j]) == 1 ? j : -1;
        if (!some) return row[constant_] != 0;
        if (unit < 0) { left_.push_back(row); return 0; }
        const int64_t sign = row[unit];
        std::vector<std::pair<int, int64_t>> sparse;
        for (int j = 0; j <= constant_; j++)
            if (row[j]) sparse.push_back({j, row[j] * sign});
        kept_.push_back(sparse), pivots_.push_back(unit);
        return 0;
    }
    bool smith() {
        std::vector<Row> &m = left_;
        for (size_t done = 0; done < m.size(); done++) {
            for (bool clean = false; !clean;) {
                size_t row = m.size();
                int column = -1;
                for (size_t i = done; i < m.size(); i++)
                    for (int j = 0; j < constant_; j++)
                        if (m[i][j] && (column < 0 || std::abs(m[i][j]) < std::abs(m[row][column]))) row = i, column = j;
                if (column < 0) return std::any_of(m.begin() + done, m.end(), [&](const Row &it) { return it[constant_] != 0; });
                std::swap(m[done], m[row]);
                clean = true;
                for (size_t i = done + 1; i < m.size(); i++) {
                    const int64_t times = m[i][column] / m[done][column];
                    for (int j = 0; times && j <= constant_; j++)
                        if (std::abs(m[i][j] -= times * m[done][j]) > kLargest) return false;
                    clean &= m[i][column] == 0;
                }
                for (int j = 0; j < constant_; j++) {
                    const int64_t times = j == column ? 0 : m[done][j] / m[done][column];
                    for (size_t i = done; times && i < m.size(); i++)
                        if (std::abs(m[i][j] -= times * m[i][column]) > kLargest) return false;
                    clean &= j == column || m[done][j] == 0;
                }
                if (clean && m[done][constant_] % m[done][column]) return true;
            }
        }
        return false;
    }
    const std::vector<Sparse> &rows_;
    const int constant_;
    std::vector<std::vector<std::pair<int, int64_t>>> kept_;
    List pivots_;
    std::vector<Row> left_;
};

bool is_leaf(const Task &task) {
    if (task.has_empty()) return true;
    int constant;
    const auto rows = equations(task, constant);
    return contradict(rows, constant) || Integers(rows, constant).contradict();
}

// ---- splits, cases and covers

// For each tuple of a simplex the root of its part: steps that change the value at one of these places join tuples.
List parts(const Tuples &tuples, const List &places) {
    Trees trees(tuples.size());
    for (int place : places) {
        std::map<uint64_t, int> first;
        for (size_t a = 0; a < tuples.size(); a++) {
            auto found = first.emplace(without(tuples[a], place), a);
            if (!found.second) trees.join(a, found.first->second);
        }
    }
    List roots;
    for (size_t a = 0; a < tuples.size(); a++) roots.push_back(trees.root(a));
    return roots;
}

// A task with other tuples in the place of those of a simplex, and for each place and value the names that stand for it.
using Names = std::vector<std::map<int, std::set<int>>>;

Task stepped(const Task &task, int s, const Tuples &made, const Names &names, int corner) {
    const auto &simplices = task.complex->simplices;
    Task next{task.complex, std::vector<Tuples>(simplices.size()), task.fresh};
    std::vector<std::map<int, int>> old(names.size());
    for (size_t i = 0; i < names.size(); i++)
        for (auto &it : names[i])
            for (int name : it.second) old[i][name] = it.first;
    for (size_t k = 0; k < simplices.size(); k++) {
        List places;
        for (int v : simplices[k]) {
            auto there = std::find(simplices[s].begin(), simplices[s].end(), v);
            places.push_back(there == simplices[s].end() ? -1 : there - simplices[s].begin());
        }
        Tuples &found = next.allowed[k];
        if (places == List{corner}) {
            found = task.allowed[k];
        } else if (std::find(places.begin(), places.end(), -1) == places.end()) {
            for (uint64_t t : made) {
                uint64_t now = 0, before = 0;
                for (size_t j = 0; j < places.size(); j++) {
                    now = put(now, j, at(t, places[j]));
                    before = put(before, j, old[places[j]][at(t, places[j])]);
                }
                if (std::binary_search(task.allowed[k].begin(), task.allowed[k].end(), before)) found.push_back(now);
            }
        } else {
            found = task.allowed[k];
            for (size_t j = 0; j < places.size(); j++) {
                Tuples more;
                for (uint64_t t : found) {
                    if (places[j] < 0) { more.push_back(t); continue; }
                    for (int name : names[places[j]].at(at(t, j))) more.push_back(put(t, j, name));
                }
                found.swap(more);
            }
        }
        once(found);
    }
    return next;
}

bool split(Task &task, int s) {
    const int n = task.complex->simplices[s].size();
    const Tuples &tuples = task.allowed[s];
    if (n < 3) return false;
    Tuples made = tuples;
    Names names(n);
    int fresh = task.fresh;
    bool changes = false;
    for (int i = 0; i < n; i++) {
        List others;
        for (int j = 0; j < n; j++)
            if (j != i) others.push_back(j);
        std::map<int, int> name_of;
        const List roots = parts(tuples, others);
        for (size_t a = 0; a < tuples.size(); a++) {
            const int value = at(tuples[a], i);
            if (!name_of.count(roots[a])) name_of[roots[a]] = names[i].count(value) ? (changes = true, fresh++) : value;
            names[i][value].insert(name_of[roots[a]]);
            made[a] = put(made[a], i, name_of[roots[a]]);
        }
    }
    if (!changes) return false;
    // a value that the simplex doesn't have stays
    for (auto &face : task.allowed)
        for (uint64_t t : face)
            for (int i = 0; i < n; i++)
                for (int j = 0; j < 4; j++) names[i].emplace(at(t, j), std::set<int>{at(t, j)});
    task.fresh = fresh;
    task = stepped(task, s, made, names, -2);
    return true;
}

class Finder {
  public:
    bool finds(Task task, int covers, int levels = kMostLevels) {
        prune(task);
        if (is_leaf(task)) return true;
        bool changed = false;
        for (bool again = true; again && task.size() <= kMostTuples; changed |= again) {
            again = false;
            for (int s = task.complex->simplices.size() - 1; s >= 0; s--) again |= split(task, s);
            prune(task);
        }
        if (changed && is_leaf(task)) return true;
        return levels > 0 && (has_case(task, covers, levels) || (!branches_ && covers && has_cover(task, covers, levels)));
    }

  private:
    // Whether each case of a simplex with the fewest parts has a tree; `branches_` says whether there is such a simplex.
    bool has_case(const Task &task, int covers, int levels) {
        int best = -1;
        std::set<int> fewest;
        for (size_t s = 0; s < task.allowed.size(); s++) {
            const std::set<int> roots = roots_of(task, s);
            if (roots.size() > 1 && (best < 0 || roots.size() < fewest.size())) best = s, fewest = roots;
        }
        branches_ = best >= 0;
        if (best < 0) return false;
        const List roots = part_roots(task, best);
        for (int root : fewest) {
            Task one = task;
            one.allowed[best].clear();
            for (size_t a = 0; a < roots.size(); a++)
                if (roots[a] == root) one.allowed[best].push_back(task.allowed[best][a]);
            if (!finds(one, covers, levels - 1)) { branches_ = true; return false; }
        }
        return true;
    }
    static List part_roots(const Task &task, int s) {
        List places(task.complex->simplices[s].size());
        std::iota(places.begin(), places.end(), 0);
        return parts(task.allowed[s], places.size() > 1 ? places : List{});
    }
    static std::set<int> roots_of(const Task &task, int s) {
        const List roots = part_roots(task, s);
        return {roots.begin(), roots.end()};
    }
    bool has_cover(const Task &task, int covers, int levels) {
        for (size_t s = 0; s < task.allowed.size(); s++)
            if (task.complex->simplices[s].size() >= 3 && has_cover_of(task, s, covers, levels)) return true;
        return false;
    }
    bool has_cover_of(const Task &task, int s, int covers, int levels) {
        const int n = task.complex->simplices[s].size();
        std::map<uint64_t, int> edges;
        auto edge = [](uint64_t t, int i, int j) { return (uint64_t(i) << 16 | at(t, i)) << 32 | uint64_t(j) << 16 | at(t, j); };
        for (uint64_t t : task.allowed[s])
            for (int i = 0; i < n; i++)
                for (int j = i + 1; j < n; j++) edges[edge(t, i, j)] = -1;
        int free = 0;
        Trees trees(4 << 16);
        for (auto &it : edges)
            if (!trees.join(it.first >> 32, it.first & 0xffffffff)) it.second = free++;
        // a row of bits for each free edge that a triangle settles
        std::vector<std::vector<bool>> rows(free);
        for (uint64_t t : task.allowed[s])
            for (int i = 0; i < n; i++)
                for (int j = i + 1; j < n; j++)
                    for (int k = j + 1; k < n; k++) {
                        std::vector<bool> row(free);
                        for (int e : {edges[edge(t, i, j)], edges[edge(t, i, k)], edges[edge(t, j, k)]})
                            if (e >= 0) row[e] = !row[e];
                        for (int e = free - 1; e >= 0; e--) {
                            if (!row[e]) continue;
                            if (rows[e].empty()) { rows[e] = row; break; }
                            for (int x = 0; x <= e; x++) row[x] = row[x] != rows[e][x];
                        }
                    }
        int chosen = 0;
        for (auto &row : rows) chosen += row.empty();
        for (int number = 1; number < (chosen < 6 ? 1 << chosen : kMostCovers); number++) {
            std::vector<bool> turns(free);
            for (int e = 0, bits = number; e < free; e++) {
                if (rows[e].empty()) { turns[e] = bits & 1, bits >>= 1; continue; }
                for (int x = 0; x < e; x++) turns[e] = turns[e] != (rows[e][x] && turns[x]);
            }
            auto turn = [&](uint64_t t, int i) { const int e = i ? edges[edge(t, 0, i)] : -1; return e >= 0 && turns[e]; };
            if (finds(covered(task, s, turn), covers - 1, levels - 1)) return true;
        }
        return false;
    }
    static Task covered(const Task &task, int s, const std::function<bool(uint64_t, int)> &turn) {
        const int n = task.complex->simplices[s].size(), fresh = task.fresh;
        Names names(n);
        Tuples made;
        for (auto &face : task.allowed)
            for (uint64_t t : face)
                for (int i = 0; i < n; i++)
                    for (int j = 0; j < 4; j++) names[i][at(t, j)] = {at(t, j), at(t, j) + fresh};
        for (uint64_t t : task.allowed[s])
            for (int sheet = 0; sheet < 2; sheet++) {
                uint64_t there = t;
                for (int i = 0; i < n; i++) there = put(there, i, at(t, i) + (sheet ^ turn(t, i)) * fresh);
                made.push_back(there);
            }
        Task next = stepped(task, s, made, names, 0);
        next.fresh = 2 * fresh;
        return next;
    }
    bool branches_ = false;
};

// ---- tasks

class Reader {
  public:
    explicit Reader(const std::string &text) : text_(text) {}

    // the task, whose complex is put there
    Task task(Complex &complex) {
        std::map<List, std::vector<List>> rules;
        const size_t end = text_.find("\"inputs\"");
        for (at_ = text_.find("\"in\":"); at_ < end; at_ = text_.find("\"in\":", at_)) {
            const std::vector<List> simplex = lists();
            at_ = text_.find("\"out\":", at_);
            List key;
            for (auto &vertex : simplex) key.push_back(vertex[0] << 8 | vertex[1]);
            rules[key] = lists();
        }
        for (auto &it : rules) complex.simplices.push_back(it.first);
        std::sort(complex.simplices.begin(), complex.simplices.end(),
                  [](const List &a, const List &b) { return a.size() != b.size() ? a.size() < b.size() : a < b; });
        std::map<List, int> number;
        for (auto &it : complex.simplices) number.emplace(it, number.size());
        Task task{&complex, {}, 1};
        for (auto &it : complex.simplices) {
            complex.facets.emplace_back();
            for (size_t i = 0; i < it.size(); i++) {
                List face = it;
                face.erase(face.begin() + i);
                complex.facets.back().push_back(face.empty() ? -1 : number.at(face));
            }
            task.allowed.emplace_back();
            for (auto &values : rules[it]) {
                uint64_t t = 0;
                for (size_t i = 0; i < values.size(); i++) t = put(t, i, values[i]), task.fresh = std::max(task.fresh, values[i] + 1);
                task.allowed.back().push_back(t);
            }
            once(task.allowed.back());
        }
        return task;
    }

  private:
    // a list of lists of numbers
    std::vector<List> lists() {
        std::vector<List> found;
        int depth = 0;
        at_ = text_.find('[', at_);
        do {
            const char c = text_[at_];
            if (c == '[' && ++depth == 2) found.emplace_back();
            if (c == ']') depth--;
            if (c >= '0' && c <= '9') {
                size_t used;
                found.back().push_back(std::stoi(text_.substr(at_, 8), &used));
                at_ += used - 1;
            }
            at_++;
        } while (depth);
        return found;
    }
    const std::string &text_;
    size_t at_ = 0;
};

}  // namespace

int main(int argc, char **argv) {
    double seconds = 0;
    for (int k = 2; k < argc; k++) {
        std::ifstream file(argv[k]);
        const std::string text((std::istreambuf_iterator<char>(file)), std::istreambuf_iterator<char>());
        const auto start = std::chrono::steady_clock::now();
        Complex complex;
        const bool found = Finder().finds(Reader(text).task(complex), atoi(argv[1]));
        seconds += std::chrono::duration<double>(std::chrono::steady_clock::now() - start).count();
        printf("%d\n", found);
    }
    printf("%.6f\n", seconds);
}
