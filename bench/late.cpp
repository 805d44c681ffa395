// Reporting on two texts over GF(65537) with late remainders: products are summed in 64 bits, and each sum takes one
// remainder. Subtracting a multiple of a row takes one remainder for each entry.

#include "reporting.h"

namespace {

struct Late : Fermat {
    static uint32_t remainder(uint64_t sum) { return static_cast<uint32_t>(sum % q); }

    static uint32_t dot(const uint32_t *a, const uint32_t *b, int n) {
        uint64_t sum = 0;
        for (int i = 0; i < n; ++i) sum += static_cast<uint64_t>(a[i]) * b[i];
        return remainder(sum);
    }

    static void row_times(const uint32_t *row, const uint32_t (*matrix)[most_states], int n, uint32_t *product) {
        uint64_t sums[most_states] = {};
        for (int i = 0; i < n; ++i)
            for (int j = 0; j < n; ++j) sums[j] += static_cast<uint64_t>(row[i]) * matrix[i][j];
        for (int j = 0; j < n; ++j) product[j] = remainder(sums[j]);
    }

    // Subtracts factor times a row from another.
    static void subtract_multiple(uint32_t *from, uint32_t factor, const uint32_t *row, int n) {
        const uint64_t opposite = q - factor;
        for (int j = 0; j < n; ++j) from[j] = remainder(from[j] + opposite * row[j]);
    }
};

}  // namespace

extern "C" size_t late_report(const uint8_t *first, size_t first_length, const uint8_t *second, size_t second_length,
                              uint8_t *out, size_t out_length) {
    return report_over<Late>(first, first_length, second, second_length, out, out_length);
}
