// What the C++ programs share: two texts are read, the tried words are walked through, and the line is written. The
// programs differ in their arithmetic alone: the operations of a field, and sums of products over rows.

#pragma once

#include <cstddef>
#include <cstdint>
#include <cstring>

// Each program has its own copy, which the compiler may inline as it would in one file.
namespace {

constexpr int most_states = 16;
constexpr int most_letters = 6;
constexpr int most_row = 2 * most_states;
constexpr int number_width = 11;
constexpr size_t longest_line = 387;

// GF(65537): residues.
struct Fermat {
    static constexpr uint32_t q = 65537;

    static uint32_t add(uint32_t a, uint32_t b) {
        uint32_t sum = a + b;
        return sum >= q ? sum - q : sum;
    }

    static uint32_t subtract(uint32_t a, uint32_t b) { return a >= b ? a - b : a + q - b; }

    static uint32_t multiply(uint32_t a, uint32_t b) { return static_cast<uint32_t>(static_cast<uint64_t>(a) * b % q); }

    // a to the power q - 2 = 65535.
    static uint32_t inverse(uint32_t a) {
        uint32_t result = a, square = a;
        for (int i = 0; i < 15; ++i) {
            square = multiply(square, square);
            result = multiply(result, square);
        }
        return result;
    }
};

struct Table {
    int states, letters;
    uint32_t start[most_states];
    uint32_t matrix[most_letters][most_states][most_states];
    uint32_t end[most_states];
};

struct Fault {
    int number, line, column;
};

// Reads a text over the field of q elements.
template <uint32_t q> class Reader {
public:
    Reader(const uint8_t *text, size_t length) : at_(text), last_(text + length) {}

    // Each function returns whether to go on; where it returns false, fault() has the reason.
    bool read(Table &table) {
        uint32_t n, k, order;
        if (!kind('T') || !number(n, 0, most_states) || !number(k, 1, most_letters) || !number(order, q, q) ||
            !newline())
            return false;
        table.states = static_cast<int>(n);
        table.letters = static_cast<int>(k);
        if (!kind('S') || !codes(table.start, table.states) || !newline()) return false;
        for (uint32_t letter = 1; letter <= k; ++letter)
            for (uint32_t row = 1; row <= n; ++row) {
                uint32_t head;
                if (!kind('M') || !number(head, letter, letter) || !number(head, row, row) ||
                    !codes(table.matrix[letter - 1][row - 1], table.states) || !newline())
                    return false;
            }
        if (!kind('E') || !codes(table.end, table.states) || !newline()) return false;
        if (!kind('Z') || !newline()) return false;
        return at_ == last_ || refuse(15, column_);
    }

    const Fault &fault() const { return fault_; }

private:
    bool refuse(int number, int column) {
        fault_ = Fault{number, line_, column};
        return false;
    }

    bool expect(uint8_t byte, int number) {
        if (at_ == last_) return refuse(10, column_);
        if (*at_ != byte) return refuse(number, column_);
        ++at_;
        ++column_;
        return true;
    }

    bool kind(char due) { return expect(static_cast<uint8_t>(due), 11); }

    bool newline() {
        if (!expect('\n', 14)) return false;
        ++line_;
        column_ = 1;
        return true;
    }

    bool number(uint32_t &value, uint32_t low, uint32_t high) {
        uint64_t read = 0;
        bool digit = false;
        const int first = column_;
        for (int i = 1; i <= number_width; ++i) {
            if (at_ == last_) return refuse(10, column_);
            const uint8_t byte = *at_;
            if (byte == ' ') {
                if (digit || i == number_width) return refuse(12, column_);
            } else {
                if (byte < '0' || byte > '9' || i == 1) return refuse(12, column_);
                if (byte == '0' && !digit && i < number_width) return refuse(12, column_);
                digit = true;
                read = 10 * read + (byte - '0');
            }
            ++at_;
            ++column_;
        }
        if (read < low || read > high) return refuse(13, first);
        value = static_cast<uint32_t>(read);
        return true;
    }

    bool codes(uint32_t *into, int count) {
        for (int i = 0; i < count; ++i)
            if (!number(into[i], 0, q - 1)) return false;
        return true;
    }

    const uint8_t *at_, *last_;
    int line_ = 1, column_ = 1;
    Fault fault_ = {};
};

class Line {
public:
    Line(uint8_t *out, char kind) : out_(out), length_(1) { out_[0] = static_cast<uint8_t>(kind); }

    Line &number(uint32_t value) {
        uint8_t *column = out_ + length_ + number_width;
        length_ += number_width;
        int left = number_width;
        do {
            *--column = static_cast<uint8_t>('0' + value % 10);
            value /= 10;
            --left;
        } while (value > 0);
        std::memset(column - left, ' ', static_cast<size_t>(left));
        return *this;
    }

    size_t finish() {
        out_[length_++] = '\n';
        return length_;
    }

private:
    uint8_t *out_;
    size_t length_;
};

// Walks through the tried words. Arithmetic has the operations of a field, `dot`, `row_times` and `subtract_multiple`.
template <class Arithmetic> class Comparison {
public:
    Comparison(const Table &first, const Table &second)
        : first_(first), second_(second), width_(first.states + second.states) {}

    size_t run(uint8_t *out) {
        uint32_t row[most_row];
        std::memcpy(row, first_.start, sizeof(uint32_t) * static_cast<size_t>(first_.states));
        std::memcpy(row + first_.states, second_.start, sizeof(uint32_t) * static_cast<size_t>(second_.states));
        if (differs(row)) return report_difference(out, -1, 0, row);
        keep(row, -1, 0);
        for (int parent = 0; parent < kept_; ++parent)
            for (int letter = 0; letter < first_.letters; ++letter) {
                Arithmetic::row_times(rows_[parent], first_.matrix[letter], first_.states, row);
                Arithmetic::row_times(rows_[parent] + first_.states, second_.matrix[letter], second_.states,
                                      row + first_.states);
                if (differs(row)) return report_difference(out, parent, letter + 1, row);
                keep(row, parent, letter + 1);
            }
        return Line(out, 'Q').number(tried_).number(static_cast<uint32_t>(kept_)).finish();
    }

private:
    bool differs(const uint32_t *row) {
        ++tried_;
        return Arithmetic::dot(row, first_.end, first_.states) !=
               Arithmetic::dot(row + first_.states, second_.end, second_.states);
    }

    // Keeps a row unless it is a combination of those kept.
    void keep(const uint32_t *row, int parent, int letter) {
        uint32_t rest[most_row];
        std::memcpy(rest, row, sizeof(uint32_t) * static_cast<size_t>(width_));
        for (int i = 0; i < kept_; ++i) {
            const int pivot = pivot_[i];
            const uint32_t factor = rest[pivot];
            if (factor == 0) continue;
            Arithmetic::subtract_multiple(rest + pivot, factor, echelon_[i] + pivot, width_ - pivot);
        }
        int pivot = 0;
        while (pivot < width_ && rest[pivot] == 0) ++pivot;
        if (pivot == width_) return;
        const uint32_t scale = Arithmetic::inverse(rest[pivot]);
        for (int j = 0; j < width_; ++j) echelon_[kept_][j] = Arithmetic::multiply(rest[j], scale);
        std::memcpy(rows_[kept_], row, sizeof(uint32_t) * static_cast<size_t>(width_));
        pivot_[kept_] = pivot;
        parent_[kept_] = parent;
        letter_[kept_] = letter;
        ++kept_;
    }

    size_t report_difference(uint8_t *out, int parent, int letter, const uint32_t *row) {
        uint32_t word[most_row];
        int length = 0;
        if (letter != 0) word[length++] = static_cast<uint32_t>(letter);
        for (int at = parent; at > 0; at = parent_[at]) word[length++] = static_cast<uint32_t>(letter_[at]);
        Line line(out, 'D');
        line.number(tried_).number(static_cast<uint32_t>(length));
        line.number(Arithmetic::dot(row, first_.end, first_.states));
        line.number(Arithmetic::dot(row + first_.states, second_.end, second_.states));
        while (length > 0) line.number(word[--length]);
        return line.finish();
    }

    const Table &first_, &second_;
    const int width_;
    uint32_t tried_ = 0;
    int kept_ = 0;
    uint32_t rows_[most_row][most_row], echelon_[most_row][most_row];
    int pivot_[most_row], parent_[most_row], letter_[most_row];
};

size_t refusal(uint8_t *out, uint32_t text, const Fault &fault) {
    return Line(out, 'R')
        .number(text)
        .number(static_cast<uint32_t>(fault.number))
        .number(static_cast<uint32_t>(fault.line))
        .number(static_cast<uint32_t>(fault.column))
        .finish();
}

template <class Arithmetic>
size_t report_over(const uint8_t *first, size_t first_length, const uint8_t *second, size_t second_length, uint8_t *out,
                   size_t out_length) {
    if (out_length < longest_line) return 0;
    Table tables[2];
    using TextReader = Reader<Arithmetic::q>;
    TextReader readers[2] = {TextReader(first, first_length), TextReader(second, second_length)};
    for (uint32_t i = 0; i < 2; ++i)
        if (!readers[i].read(tables[i])) return refusal(out, i + 1, readers[i].fault());
    if (tables[0].letters != tables[1].letters) return refusal(out, 0, Fault{5, 0, 0});
    return Comparison<Arithmetic>(tables[0], tables[1]).run(out);
}

}  // namespace
