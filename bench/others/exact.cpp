// What a buyer would write in an afternoon, in C++ with GMP: reads a problem and two certificates, multiplies the squares out with
// whole numbers of any size, and says whether both identities hold. It takes streams as they should be: it refuses nothing, makes no
// blocks and keeps no limits. `exact FILE SECONDS` reads one record, the three lengths and the three streams as bench has them, and
// prints the nanoseconds of one pair, the least of many runs.
#include <gmpxx.h>

#include <array>
#include <chrono>
#include <cstdint>
#include <cstdio>
#include <cstdlib>
#include <fstream>
#include <iterator>
#include <unordered_map>
#include <vector>

using Bytes = std::vector<uint8_t>;
using Polynomial = std::unordered_map<uint64_t, mpz_class>;  // by key: the exponents as the eight bytes of one number

static int64_t number(const Bytes &bytes, size_t at, int width) {
    uint64_t value = 0;
    for (int i = 0; i < width; i++) value |= uint64_t(bytes[at + i]) << (8 * i);
    return int64_t(value);
}

static int64_t signed_number(const Bytes &bytes, size_t at, int width) {
    int64_t value = number(bytes, at, width);
    return width == 8 ? value : value - (((value >> (8 * width - 1)) & 1) << (8 * width));
}

struct Problem {
    Polynomial objective;
    std::vector<Polynomial> multipliers{{{0, 1}}};
    std::array<std::vector<uint64_t>, 9> bases;
};

static Problem problem_of(const Bytes &s) {
    Problem problem;
    for (size_t at = 0; s[at] != 0x06;) switch (s[at]) {
        case 0x01: case 0x08: case 0x09: at += 2; break;
        case 0x02: problem.objective[number(s, at + 1, 8)] = long(signed_number(s, at + 9, 4)); at += 13; break;
        case 0x03: case 0x07: problem.multipliers.emplace_back(); at += 1; break;
        case 0x04: problem.multipliers.back()[number(s, at + 1, 8)] = long(signed_number(s, at + 9, 2)); at += 11; break;
        case 0x05: problem.bases[s[at + 1]].push_back(number(s, at + 2, 8)); at += 10; break;
        default: std::exit(2);
    }
    return problem;
}

static void add_row(Polynomial &sum, const Problem &problem, int j, const mpz_class &weight, const Polynomial &form) {
    Polynomial square;
    for (auto a = form.begin(); a != form.end(); ++a) {
        const mpz_class twice = 2 * a->second;
        mpz_addmul(square[2 * a->first].get_mpz_t(), a->second.get_mpz_t(), a->second.get_mpz_t());
        for (auto b = std::next(a); b != form.end(); ++b)
            mpz_addmul(square[a->first + b->first].get_mpz_t(), twice.get_mpz_t(), b->second.get_mpz_t());
    }
    for (auto &[a, x] : square) {
        x *= weight;
        for (const auto &[t, g] : problem.multipliers[j]) mpz_addmul(sum[a + t].get_mpz_t(), x.get_mpz_t(), g.get_mpz_t());
    }
}

static bool holds(const Problem &problem, const Bytes &s) {
    const mpz_class scale = long(number(s, 2, 2)), p = long(signed_number(s, 4, 4)), q = long(number(s, 8, 2));
    const mpz_class side = s[1] == 0 ? 1 : -1;
    Polynomial sum, form;
    int j = 0;
    mpz_class weight = 0;
    for (size_t at = 10;;) switch (s[at]) {
        case 0x12: form[problem.bases[j][s[at + 1]]] = long(signed_number(s, at + 2, 2)); at += 4; break;
        case 0x15: form[problem.bases[j][s[at + 1]]] = long(signed_number(s, at + 2, 4)); at += 6; break;
        default:
            add_row(sum, problem, j, weight, form);
            form.clear();
            if (s[at] == 0x13) {
                for (const auto &[key, c] : problem.objective) sum[key] -= side * scale * q * c;
                sum[0] += side * scale * p;
                for (const auto &[key, c] : sum)
                    if (c != 0) return false;
                return true;
            }
            j = s[at + 1];
            weight = long(s[at] == 0x11 ? number(s, at + 2, 2) : signed_number(s, at + 2, 2));
            at += 4;
    }
}

int main(int count, char **words) {
    if (count != 3) return std::fputs("usage: exact FILE SECONDS\n", stderr), 2;
    std::ifstream file(words[1], std::ios::binary);
    const Bytes all{std::istreambuf_iterator<char>(file), {}};
    std::array<Bytes, 3> streams;
    size_t at = 13;  // the kind and three lengths
    for (int i = 0; i < 3; i++) {
        const size_t length = number(all, 1 + 4 * i, 4);
        streams[i].assign(all.begin() + at, all.begin() + at + length);
        at += length;
    }
    double least = 1e30;
    bool all_hold = true;
    const auto now = [] { return std::chrono::duration<double>(std::chrono::steady_clock::now().time_since_epoch()).count(); };
    for (const double until = now() + std::atof(words[2]); least == 1e30 || now() < until;) {
        const double begun = now();
        const Problem problem = problem_of(streams[0]);
        all_hold &= holds(problem, streams[1]) && holds(problem, streams[2]);
        least = std::min(least, now() - begun);
    }
    if (!all_hold) return std::fputs("an identity does not hold\n", stderr), 1;
    std::printf("%.0f\n", least * 1e9);
}
