// A book (01, "Book") for the programs here that put another solver's work beside ours.
#pragma once

#include <cstdint>
#include <cstdio>
#include <cstdlib>
#include <cstring>
#include <fstream>
#include <iterator>
#include <vector>

struct Book {
    int n = 0, m = 0;
    std::vector<int> bounds; // l0 u0 l1 u1 ..
    std::vector<int> rhs;
    std::vector<int> coefs; // row after row

    explicit Book(const char *path) {
        std::ifstream file(path, std::ios::binary);
        std::vector<char> bytes{std::istreambuf_iterator<char>(file), {}};
        if (bytes.size() < 16) {
            std::fprintf(stderr, "%s: no book\n", path);
            std::exit(1);
        }
        std::uint16_t size[2];
        std::memcpy(size, bytes.data() + bytes.size() - 8, sizeof size);
        n = size[0];
        m = size[1];
        std::vector<std::int32_t> numbers((bytes.size() - 16) / 4);
        std::memcpy(numbers.data(), bytes.data(), 4 * numbers.size());
        auto next = numbers.begin();
        bounds.assign(next, next + 2 * n);
        next += 2 * n;
        for (int r = 0; r < m; r++) {
            rhs.push_back(*next++);
            coefs.insert(coefs.end(), next, next + n);
            next += n;
        }
    }
};

// A box as the program `calls` prints it.
inline void print_box(const std::vector<int> &bounds) {
    for (std::size_t i = 0; i < bounds.size(); i++) std::printf("%s%d", i ? ", " : "[", bounds[i]);
    std::puts("]");
}
