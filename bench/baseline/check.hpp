// A plain checker of reports.
#pragma once
#include "search.hpp"

class Checker {
    struct Entry { bool is_branch; u32 point; Set set; };  // what a point had, or the values still to come

    const Problem& problem;
    const char* at;
    std::vector<Set> sets;
    std::vector<Entry> trail;

    bool take(const char* word) {
        size_t length = strlen(word);
        if (strncmp(at, word, length)) return false;
        at += length;
        return true;
    }
    u32 number(char before) {
        if (*at != before) throw "syntax";
        u32 n = 0;
        for (at++; isdigit((unsigned char)*at); at++) n = 10 * n + (*at - '0');
        return n;
    }
    u32 below(u32 limit, char before = ' ') {
        u32 n = number(before);
        if (n >= limit) throw "there is none of this number";
        return n;
    }
    void end_line() {
        if (*at++ != '\n') throw "syntax";
    }
    void header(const char* word, u32 wanted) {
        if (!take(word) || number(' ') != wanted) throw "header";
        end_line();
    }
    void change(u32 point, Set set) {
        trail.push_back({false, point, sets[point]});
        sets[point] = set;
    }
    void judge_removal() {
        const Execution& e = problem.complex.executions[below(problem.complex.executions.size())];
        u32 process = number(' '), value = below(64), place = 0;
        const Simplex& simplex = problem.task.rules[e.rule].simplex;
        while (place < simplex.size && simplex.process(place) != process) place++;
        if (place == simplex.size) throw "there is none of this number";
        Set candidates[4];
        for (u32 c = 0; c < simplex.size; c++) candidates[c] = sets[e.points[c]];
        if (problem.tables[e.rule].supports(candidates, place, value)) throw "unsound";
        if (candidates[place] >> value & 1) change(e.points[place], candidates[place] & ~(1ull << value));
    }
    void judge_branch() {
        u32 point = below(problem.complex.points);
        Set set = sets[point];
        if (!has_two(set)) throw "not open";
        trail.push_back({true, point, set & (set - 1)});
        change(point, set & -set);
    }
    // Whether a block is left.
    bool judge_empty() {
        if (sets[below(problem.complex.points)]) throw "not empty";
        for (; !trail.empty(); trail.pop_back()) {
            Entry& e = trail.back();
            if (!e.is_branch) {
                sets[e.point] = e.set;
            } else if (e.set) {
                Set left = e.set;
                e.set &= e.set - 1;
                change(e.point, left & -left);
                return true;
            }
        }
        return false;
    }
    void judge_lines() {
        bool is_done = false;
        for (; !take("end\n"); end_line()) {
            if (is_done) throw "trailing";
            char kind = *at++;
            if (kind == 'p') judge_removal();
            else if (kind == 'b') judge_branch();
            else if (kind == 'z') is_done = !judge_empty();
            else throw "syntax";
        }
        if (!is_done) throw "unfinished";
    }
    void judge_map() {
        std::vector<u8> values;
        for (; take("m"); end_line()) values.push_back(below(64));
        if (!take("end\n") || values.size() != problem.complex.points) throw "map length";
        for (auto& e : problem.complex.executions) {
            u32 row = 0;
            for (u32 c = 0; c < problem.size(e); c++) row |= values[e.points[c]] << (24 - 8 * c);
            auto& rows = problem.task.rules[e.rule].rows;
            if (!std::binary_search(rows.begin(), rows.end(), row)) throw "violates";
        }
    }

  public:
    Checker(const Problem& p, const char* text) : problem(p), at(text), sets(p.complex.points, p.task.values) {}

    // What was accepted. What is wrong is thrown.
    const char* check(u32 rounds) {
        if (!take("wfcheck report 1\n")) throw "syntax";
        header("processes", problem.task.processes);
        header("rounds", rounds);
        header("points", problem.complex.points);
        header("executions", problem.complex.executions.size());
        if (take("answer map\n")) return judge_map(), "accepted map";
        if (!take("answer none\n")) throw "syntax";
        return judge_lines(), "accepted none";
    }
};
