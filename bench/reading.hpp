// What the C++ checkers of proofs share: literals, and how the text of a formula or of a proof begins.
#pragma once
#include <cstdint>
#include <cstdio>
#include <cstdlib>
#include <vector>

using Literal = int;
using Clause = std::vector<Literal>;

// the number of a literal: those of a variable stand side by side
inline uint32_t index(Literal l) { return l > 0 ? 2u * l : 2u * -l + 1; }

// a text that is read through a buffer; the program ends with 2 where there is none
class Text {
  public:
    explicit Text(const char *name) : file_(fopen(name, "r")) {
        if (!file_) exit(2);
        setvbuf(file_, buffer_, _IOFBF, sizeof buffer_);
    }
    ~Text() { fclose(file_); }
    // how many variables a formula says that it has
    int variables() {
        int variables = 0, clauses = 0;
        skip_comments();
        if (fscanf(file_, "p cnf %d %d", &variables, &clauses) != 2) exit(2);
        return variables;
    }

  protected:
    // passes over blanks, and says what comes next
    int peek() {
        int c = getc_unlocked(file_);
        while (c == ' ' || c == '\n') c = getc_unlocked(file_);
        ungetc(c, file_);
        return c;
    }
    void skip_comments() {
        while (peek() == 'c')
            for (int c = getc_unlocked(file_); c != '\n' && c != EOF;) c = getc_unlocked(file_);
    }
    FILE *file_;

  private:
    char buffer_[1 << 16];
};
