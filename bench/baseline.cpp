// A plain search for decision maps in C++, and a plain checker: what the proved program is timed beside.
//
//   baseline solve|verdict|least ROUNDS [WORKERS] < TASK     the report: in full, without lines, or with those of a map
//   baseline check ROUNDS REPORT < TASK                      what the report shows
//   baseline stages ROUNDS [REPEATS [LAST]] < TASK           nanoseconds of processor time that reading the task and the
//                                                            stages up to the last take: join, close or search
//
// The algorithms are the program's: views by number, sets of rows for each value of a table of tuples, a trail of changes,
// marks on executions, answers of tables that are kept, and branches that threads share out. Where a table is small, all of its
// answers are kept. The task file has to be right, with values below 64, of
// version 1. The report is byte for byte that of the program.
#include "baseline/answer.hpp"
#include "baseline/check.hpp"
#include <ctime>

static std::string read_all(FILE* file) {
    std::string text;
    char piece[1 << 16];
    for (size_t n; (n = fread(piece, 1, sizeof piece, file)) > 0;) text.append(piece, n);
    return text;
}

static u64 processor_time() {
    timespec now;
    clock_gettime(CLOCK_PROCESS_CPUTIME_ID, &now);
    return now.tv_sec * 1000000000ull + now.tv_nsec;
}

// The sum of each stage's times.
struct Stages {
    u64 read = 0, build = 0, join = 0, close = 0, search = 0;
    u64 last = processor_time();

    void end(u64& stage) {
        u64 now = processor_time();
        stage += now - last;
        last = processor_time();
    }
};

// What it answers is only there so that no stage is left out.
static size_t run_stages(const std::string& text, u32 rounds, const std::string& final, Stages& times) {
    times.last = processor_time();
    Task task = TaskReader{text.c_str()}.task();
    times.end(times.read);
    Complex complex = Builder(task, rounds).build();
    times.end(times.build);
    Problem problem(task, complex);
    times.end(times.join);
    if (final == "join") return problem.users.size();
    Caches caches(problem);
    Search search(problem, caches, true);
    bool is_left = search.close();
    times.end(times.close);
    if (final == "close" || !is_left) return search.count;
    search.run();
    times.end(times.search);
    return search.count;
}

static int print_stages(const std::string& text, u32 rounds, u32 repeats, const std::string& final) {
    Stages times;
    size_t done = 0;
    for (u32 i = 0; i < repeats; i++) done += run_stages(text, rounds, final, times);
    fprintf(stderr, "%zu\n", done);
    printf("read %zu build %zu join %zu close %zu search %zu\n", times.read / repeats, times.build / repeats,
           times.join / repeats, times.close / repeats, times.search / repeats);
    return 0;
}

static int print_check(const Problem& problem, u32 rounds, const char* file) {
    FILE* report = fopen(file, "r");
    if (!report) return 4;
    std::string text = read_all(report);
    fclose(report);
    try {
        puts(Checker(problem, text.c_str()).check(rounds));
        return 0;
    } catch (const char* fault) {
        fprintf(stderr, "%s\n", fault);
        return 2;
    }
}

int main(int argc, char** argv) {
    if (argc < 3) return 2;
    std::string mode = argv[1], text = read_all(stdin);
    u32 rounds = atoi(argv[2]), number = argc > 3 ? atoi(argv[3]) : 1;
    if (mode == "stages") return print_stages(text, rounds, number, argc > 4 ? argv[4] : "search");
    Task task = TaskReader{text.c_str()}.task();
    Complex complex = Builder(task, rounds).build();
    Problem problem(task, complex);
    if (mode == "check") return argc > 3 ? print_check(problem, rounds, argv[3]) : 2;
    Form form = mode == "least" ? Form::least : mode == "verdict" ? Form::verdict : Form::full;
    bool keeps_lines = form != Form::verdict;
    Answer answer = number > 1 ? solve(problem, keeps_lines, number) : solve_one(problem, keeps_lines);
    write_report(problem, rounds, answer, form);
    return answer.found == Found::map ? 0 : 1;
}
