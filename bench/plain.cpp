// Reporting on two texts, and reading a text and writing it again, as one would write it in plain C++ for a small
// device: fixed arrays, no heap, and a remainder after each product. The verified library's speed is measured against
// it; the bench checks that both write the same bytes.

#include "reporting.h"

namespace {

// The powers of t + 1 in GF(256), twice over, and the exponent of each byte.
struct Logarithms {
    uint8_t power[510], exponent[256];

    constexpr Logarithms() : power(), exponent() {
        unsigned value = 1;
        for (unsigned i = 0; i < 255; ++i) {
            power[i] = power[i + 255] = static_cast<uint8_t>(value);
            exponent[value] = static_cast<uint8_t>(i);
            value ^= value << 1;
            if (value >= 256) value ^= 0x11b;
        }
    }
};

constexpr Logarithms logarithms;

// GF(256): bytes.
struct Bytes {
    static constexpr uint32_t q = 256;

    static uint32_t add(uint32_t a, uint32_t b) { return a ^ b; }

    static uint32_t subtract(uint32_t a, uint32_t b) { return a ^ b; }

    static uint32_t multiply(uint32_t a, uint32_t b) {
        if (a == 0 || b == 0) return 0;
        return logarithms.power[logarithms.exponent[a] + logarithms.exponent[b]];
    }

    static uint32_t inverse(uint32_t a) { return logarithms.power[255 - logarithms.exponent[a]]; }
};

// Sums of products, by one operation of the field after another.
template <class Field> struct Plain : Field {
    static uint32_t dot(const uint32_t *a, const uint32_t *b, int n) {
        uint32_t sum = 0;
        for (int i = 0; i < n; ++i) sum = Field::add(sum, Field::multiply(a[i], b[i]));
        return sum;
    }

    static void row_times(const uint32_t *row, const uint32_t (*matrix)[most_states], int n, uint32_t *product) {
        for (int j = 0; j < n; ++j) product[j] = 0;
        for (int i = 0; i < n; ++i)
            for (int j = 0; j < n; ++j) product[j] = Field::add(product[j], Field::multiply(row[i], matrix[i][j]));
    }

    // Subtracts factor times a row from another.
    static void subtract_multiple(uint32_t *from, uint32_t factor, const uint32_t *row, int n) {
        for (int j = 0; j < n; ++j) from[j] = Field::subtract(from[j], Field::multiply(factor, row[j]));
    }
};

size_t put_line(uint8_t *out, char kind, uint32_t head, uint32_t row, const uint32_t *codes, int count) {
    Line line(out, kind);
    if (head != 0) line.number(head).number(row);
    for (int i = 0; i < count; ++i) line.number(codes[i]);
    return line.finish();
}

template <uint32_t q> size_t write(const Table &table, uint8_t *out) {
    const int n = table.states;
    uint8_t *at = out;
    at += Line(at, 'T')
              .number(static_cast<uint32_t>(n))
              .number(static_cast<uint32_t>(table.letters))
              .number(q)
              .finish();
    at += put_line(at, 'S', 0, 0, table.start, n);
    for (int letter = 0; letter < table.letters; ++letter)
        for (int row = 0; row < n; ++row)
            at += put_line(at, 'M', static_cast<uint32_t>(letter + 1), static_cast<uint32_t>(row + 1),
                           table.matrix[letter][row], n);
    at += put_line(at, 'E', 0, 0, table.end, n);
    at += put_line(at, 'Z', 0, 0, nullptr, 0);
    return static_cast<size_t>(at - out);
}

}  // namespace

extern "C" size_t plain_report(const uint8_t *first, size_t first_length, const uint8_t *second, size_t second_length,
                               uint8_t *out, size_t out_length) {
    return report_over<Plain<Fermat>>(first, first_length, second, second_length, out, out_length);
}

extern "C" size_t plain_report_bytes(const uint8_t *first, size_t first_length, const uint8_t *second,
                                     size_t second_length, uint8_t *out, size_t out_length) {
    return report_over<Plain<Bytes>>(first, first_length, second, second_length, out, out_length);
}

// Reads a text over GF(65537), writes it again and returns its length; returns 0 where the text is refused or too long
// for the output. The text that is written is as long as the one that was read.
extern "C" size_t plain_rewrite(const uint8_t *text, size_t length, uint8_t *out, size_t out_length) {
    Table table;
    Reader<Fermat::q> reader(text, length);
    if (!reader.read(table) || out_length < length) return 0;
    return write<Fermat::q>(table, out);
}
