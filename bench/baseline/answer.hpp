// What a search of the root answers, by one thread or by several, and the text of its report.
#pragma once
#include "search.hpp"
#include <charconv>
#include <cstdio>
#include <thread>

enum class Form { full, verdict, least };

struct Answer {
    Found found;
    std::vector<Set> sets;  // of a map
    Lines lines;
};

static Answer solve_one(const Problem& problem, bool keeps_lines) {
    Caches caches(problem);
    Search search(problem, caches, keeps_lines);
    if (search.is_empty()) return {Found::none, {}, std::move(search.lines)};
    Found found = search.run();
    return {found, std::move(search.sets), std::move(search.lines)};
}

// A branch, and the lines before it.
struct Slot {
    Lines before;
    std::vector<Set> sets;
    bool is_open;
};

// The branches of the root: it is closed, and then each open box gives way to its closed children, level by level, until
// there are enough boxes or levels, or none is open.
class Outline {
    static constexpr size_t enough_boxes = 64, most_levels = 8;
    const Problem& problem;
    Caches caches;
    bool keeps_lines;

    void leave_out(std::vector<Set> sets) {
        bool is_open = std::any_of(sets.begin(), sets.end(), has_two);
        slots.push_back({std::move(after), std::move(sets), is_open});
        after.clear();
    }
    void append(const Lines& lines) { after.insert(after.end(), lines.begin(), lines.end()); }
    void open(std::vector<Set> closed) {
        Search box(problem, caches, keeps_lines, std::move(closed));
        u32 point = box.first_open();
        if (keeps_lines) after.push_back({'b', 0, 0, point});
        for (Set left = box.sets[point]; left; left &= left - 1) {
            box.set(point, left);
            bool is_left = box.close();
            append(box.lines);
            box.lines.clear();
            if (is_left) leave_out(box.sets);
            box.undo(0);
        }
    }
    void open_each() {
        auto old = std::move(slots);
        Lines last = std::move(after);
        slots.clear();
        after.clear();
        for (Slot& slot : old) {
            append(slot.before);
            if (slot.is_open) open(std::move(slot.sets));
            else leave_out(std::move(slot.sets));
        }
        append(last);
    }

  public:
    std::vector<Slot> slots;
    Lines after;

    Outline(const Problem& p, bool keeps) : problem(p), caches(p), keeps_lines(keeps) {
        Search root(p, caches, keeps);
        bool is_left = !root.is_empty() && root.close();
        after = std::move(root.lines);
        if (is_left) leave_out(std::move(root.sets));
        auto is_open = [](const Slot& slot) { return slot.is_open; };
        for (size_t level = 0; level < most_levels && slots.size() < enough_boxes; level++) {
            if (std::none_of(slots.begin(), slots.end(), is_open)) break;
            open_each();
        }
    }
    // The lines of the root up to those of the last of these lists, or to the end.
    Lines fill(std::vector<Answer>& answers, size_t count) {
        Lines all;
        for (size_t b = 0; b < count; b++) {
            all.insert(all.end(), slots[b].before.begin(), slots[b].before.end());
            all.insert(all.end(), answers[b].lines.begin(), answers[b].lines.end());
            Lines().swap(answers[b].lines);
        }
        if (count == slots.size()) all.insert(all.end(), after.begin(), after.end());
        return all;
    }
};

static Answer solve(const Problem& problem, bool keeps_lines, u32 workers) {
    Outline outline(problem, keeps_lines);
    u32 branches = outline.slots.size();
    std::vector<Answer> answers(branches);
    std::atomic<u32> next{0}, least{branches};
    auto work = [&] {
        Caches caches(problem);
        for (u32 own; (own = next++) < branches;) {
            if (least < own) return;
            Search search(problem, caches, keeps_lines, std::move(outline.slots[own].sets));
            Found found = search.run(&least, own);
            answers[own] = {found, {}, std::move(search.lines)};
            if (found != Found::map) continue;
            answers[own].sets = std::move(search.sets);
            for (u32 now = least; own < now && !least.compare_exchange_weak(now, own);) {}
        }
    };
    std::vector<std::thread> threads;
    for (u32 w = 1; w < std::min(workers, branches); w++) threads.emplace_back(work);
    work();
    for (auto& thread : threads) thread.join();
    if (least == branches) return {Found::none, {}, outline.fill(answers, branches)};
    return {Found::map, std::move(answers[least].sets), outline.fill(answers, least + 1)};
}

// Text on its way to standard output.
class Writer {
    static constexpr size_t piece = 1 << 16;
    std::string text;

  public:
    ~Writer() { fwrite(text.data(), 1, text.size(), stdout); }
    void put(const char* word) { text += word; }
    void put(char before, u32 number) {
        char digits[12];
        text += before;
        text.append(digits, std::to_chars(digits, digits + sizeof digits, number).ptr);
    }
    void end() {
        text += '\n';
        if (text.size() < piece) return;
        fwrite(text.data(), 1, text.size(), stdout);
        text.clear();
    }
};

static void write_number(Writer& out, const char* word, u32 number) {
    out.put(word);
    out.put(' ', number);
    out.end();
}

static void write_lines(Writer& out, const Lines& lines) {
    for (auto& line : lines) {
        out.put(line.kind == 'p' ? "p" : line.kind == 'z' ? "z" : "b");
        out.put(' ', line.at);
        if (line.kind == 'p') {
            out.put(' ', line.process);
            out.put(' ', line.value);
        }
        out.end();
    }
}

static void write_report(const Problem& problem, u32 rounds, const Answer& answer, Form form) {
    Writer out;
    bool is_map = answer.found == Found::map, is_least = is_map && form == Form::least;
    out.put("wfcheck report 1\n");
    write_number(out, "processes", problem.task.processes);
    write_number(out, "rounds", rounds);
    write_number(out, "points", problem.complex.points);
    write_number(out, "executions", problem.complex.executions.size());
    out.put(is_least ? "answer least\n" : is_map ? "answer map\n" : "answer none\n");
    if (is_map)
        for (Set set : answer.sets) write_number(out, "m", first_of(set));
    if (is_least || (!is_map && form != Form::verdict)) write_lines(out, answer.lines);
    if (is_least) out.put("f\n");
    out.put("end\n");
}
