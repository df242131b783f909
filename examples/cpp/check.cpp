// Packed cells on standard input, the lines of `aes3 check --packed-in` on standard output, status 1 where there are faults.
#include "aes3.hpp"
#include <cstdio>
#include <vector>

static bool read_all(std::vector<std::uint8_t> &octets) {
    std::uint8_t piece[4096];
    while (std::size_t count = std::fread(piece, 1, sizeof piece, stdin))
        octets.insert(octets.end(), piece, piece + count);
    return !std::ferror(stdin);
}

int main() {
    std::vector<std::uint8_t> octets;
    if (!read_all(octets) || octets.empty() || octets.back() > 7)
        return 3;
    // The last octet counts the unused cells before it.
    const std::size_t cells = 8 * (octets.size() - 1) - octets.back();
    octets.resize(octets.size() + 7);
    std::vector<std::uint64_t> words;
    for (std::size_t at = 0; at < cells; at += 64)
        words.push_back(aes3_word_of_octets(&octets[at / 8]));

    bool is_whole = true;
    const auto tell = [&](const aes3::report &it) {
        const unsigned long long at = it.at, cell = it.cell;
        is_whole &= it.kind != AES3_MARKED && it.kind != AES3_FAULT;
        if (it.kind == AES3_WHOLE)
            std::printf("whole at %llu before %u\n", at, it.before);
        else if (it.kind == AES3_MARKED)
            std::printf("marked at %llu before %u wrong %u\n", at, it.before, it.wrong);
        else if (it.kind == AES3_FAULT)
            std::printf("fault at %llu cell %llu %s\n", at, cell, aes3::why_text(it));
        else
            std::printf("unfinished at %llu cells %llu\n", at, cell);
    };
    aes3::lock lock;
    lock.take({words.data(), cells / 64}, tell);
    if (cells % 64)
        lock.push(words.back(), cells % 64, tell);
    lock.finish(tell);
    return !is_whole;
}
