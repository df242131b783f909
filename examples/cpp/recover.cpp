// recover [--packed-in] WAV: a damaged line on standard input, as text or as packed cells. Writes the samples of its whole blocks to the
// file WAV, as `aes3 to-wav -o WAV` does. Prints every fault and gap with its place, and a fault with its cause: the lines of
// `aes3 check --gaps` except those of whole blocks.
//
// Status 0: no fault. 1: faults, or gaps that count. 2: usage error. 3: the input is rejected, or the input or output failed.
// The header is written last. So after status 3 WAV has no header, and no program reads it as a WAV file.
#include "aes3.hpp"
#include <cerrno>
#include <cstdio>
#include <cstring>
#include <fcntl.h>

static const int bits = 24;

static int fail(const char *what) {
    std::fprintf(stderr, "recover: %s\n", what);
    return 3;
}

// The sampling frequency that a channel status names, or 0.
static std::uint32_t rate_of(const aes3::status &status) {
    static const std::uint32_t consumer[16] = {44100, 0, 48000, 32000, 22050, 0, 24000, 0, 88200, 768000, 96000, 0, 176400, 0, 192000, 0};
    static const std::uint32_t byte_0[4] = {0, 44100, 48000, 32000};
    static const std::uint32_t byte_4[16] = {0, 24000, 96000, 192000, 0, 0, 0, 0, 0, 22050, 88200, 176400, 0, 0, 0, 0};
    if (!(status[0] & 1))
        return consumer[status[3] & 15];
    return status[0] >> 6 ? byte_0[status[0] >> 6] : byte_4[status[4] >> 3 & 15];
}

// A WAV file of the samples of blocks. Zeros are in the place of its header until that is written.
class wav_file {
    std::FILE *file;
    std::uint64_t frames = 0;
    std::uint32_t rate = 0; // of the first block; 0 if it names none

  public:
    explicit wav_file(const char *name) : file(std::fopen(name, "wb")) {
        const std::uint8_t none[AES3_WAV_OCTETS] = {};
        if (file)
            std::fwrite(none, 1, sizeof none, file);
    }
    wav_file(const wav_file &) = delete;
    wav_file &operator=(const wav_file &) = delete;
    ~wav_file() {
        if (file)
            std::fclose(file);
    }
    bool is_open() const { return file; }
    bool lacks_rate() const { return frames > 0 && rate == 0; }

    // The highest bits of each sample, the lowest octet first.
    void put(const aes3::words &block) {
        aes3::samples samples;
        aes3::status status;
        std::uint8_t octets[AES3_BLOCK_WORDS * bits / 8];
        std::size_t count = 0;
        aes3::samples_of(block, samples);
        for (const std::int32_t sample : samples)
            for (int up = 32 - bits; up < 32; up += 8)
                octets[count++] = static_cast<std::uint8_t>(static_cast<std::uint32_t>(sample) >> up);
        std::fwrite(octets, 1, count, file);
        if (frames == 0) {
            aes3::status_of(block, 1, status);
            rate = rate_of(status);
        }
        frames += AES3_BLOCK_WORDS / 2;
    }

    // Writes the header, once all samples are written; answers whether all of the file is. A pipe has no place for it.
    bool end() {
        std::uint8_t header[AES3_WAV_OCTETS];
        const std::uint32_t count = aes3::write_wav(bits, rate ? rate : 48000, frames, header);
        const bool is_written = !std::ferror(file) && std::fflush(file) == 0 && std::fseek(file, 0, SEEK_SET) == 0 &&
                                std::fwrite(header, 1, count, file) == count;
        const bool is_closed = std::fclose(file) == 0;
        file = nullptr;
        return is_written && is_closed;
    }
};

// Prints a report that is not of a whole block; answers whether it is a fault.
static bool print(const aes3::report &it) {
    const unsigned long long at = it.at, cell = it.cell;
    if (it.kind == AES3_MARKED)
        std::printf("marked at %llu before %u wrong %u\n", at, it.before, it.wrong);
    else if (it.kind == AES3_FAULT)
        std::printf("fault at %llu cell %llu %s\n", at, cell, aes3::why_text(it));
    else
        std::printf("unfinished at %llu cells %llu\n", at, cell);
    return it.kind != AES3_UNFINISHED;
}

static int recover(aes3::form form, wav_file &wav) {
    bool is_whole = true;
    const auto print_gap = [&](const aes3::gap &gap) {
        std::printf("gap at %llu cells %llu\n", static_cast<unsigned long long>(gap.at), static_cast<unsigned long long>(gap.cells));
        is_whole &= !gap.counts;
    };
    const auto read = [](std::uint8_t *octets, std::size_t room) {
        const std::size_t count = std::fread(octets, 1, room, stdin);
        return count == 0 && std::ferror(stdin) ? std::ptrdiff_t(-1) : static_cast<std::ptrdiff_t>(count);
    };
    aes3::account account;
    auto line = aes3::reports(read, form);
    for (const aes3::report &it : line) {
        account.before(it, print_gap);
        if (it.kind == AES3_WHOLE)
            wav.put(it.words);
        else
            is_whole &= !print(it);
        account.passed(line.seen(), print_gap);
    }
    if (line.result() != aes3::outcome::ended)
        account.passed(line.seen(), print_gap);
    switch (line.result()) {
    case aes3::outcome::ended:
        break;
    case aes3::outcome::full:
        return fail("the lock has taken 2^43 cells");
    case aes3::outcome::rejected:
        if (form == aes3::form::packed)
            return fail("the octets do not end as packed cells do, with the number of unused cells");
        std::fprintf(stderr, "recover: byte %llu is not a cell: cell text has 0 and 1\n", static_cast<unsigned long long>(line.wrong_at()));
        return 3;
    default:
        return fail("the input failed");
    }
    account.end(line.seen(), print_gap);
    if (std::fflush(stdout) != 0 || std::ferror(stdout))
        return fail("the output failed");
    if (wav.lacks_rate())
        std::fputs("recover: the line names no sampling frequency: the file says 48000 Hz\n", stderr);
    if (!wav.end())
        return fail("the file can't be written");
    return !is_whole;
}

int main(int count, char **arguments) {
    const bool is_packed = count == 3 && std::strcmp(arguments[1], "--packed-in") == 0;
    if (count != 2 + is_packed || arguments[count - 1][0] == '-') {
        std::fputs("usage: recover [--packed-in] WAV <LINE\n", stderr);
        return 2;
    }
    // Otherwise the file would take the place of standard output.
    if (fcntl(1, F_GETFD) < 0)
        return fail("there is no standard output");
    wav_file wav(arguments[count - 1]);
    if (!wav.is_open()) {
        std::fprintf(stderr, "recover: %s: %s\n", arguments[count - 1], std::strerror(errno));
        return 3;
    }
    return recover(is_packed ? aes3::form::packed : aes3::form::text, wav);
}
