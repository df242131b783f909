// What aes3.hpp has beside the lock, with answers that are known. Status 1 where one is another.
#include "aes3.hpp"
#include <array>
#include <cstdio>
#include <string>
#include <vector>
#ifdef __cpp_lib_span
#include <algorithm>
#include <ranges>
#endif

static bool is_right = true;

static void judge(const char *what, bool answer) {
    if (!answer)
        std::printf("calls: %s\n", what);
    is_right &= answer;
}

// A line of each report of a range, and what it came to.
template <class Range> static std::string lines_of(Range range) {
    std::string lines;
    for (const aes3::report &it : range)
        lines += std::to_string(it.kind) + " at " + std::to_string(it.at) + (it.kind == AES3_WHOLE ? " " + std::to_string(it.words[0]) : "") + "\n";
    judge("no report after the last", range.begin() == range.end() && !range.advance());
    static const char *const ends[] = {"going", "ended", "rejected", "failed", "full"};
    return lines + ends[static_cast<int>(range.result())] + " " + std::to_string(range.wrong_at()) + " of " + std::to_string(range.seen());
}

// The reports of octets that come in pieces of `size`, and then end or fail.
static std::string lines_in_pieces(const std::vector<std::uint8_t> &octets, std::size_t size, aes3::form form, int end = 0) {
    std::size_t at = 0;
    return lines_of(aes3::reports(
        [=, &octets](std::uint8_t *to, std::size_t room) mutable {
            std::size_t count = 0;
            while (at < octets.size() && count < size && count < room)
                to[count++] = octets[at++];
            return count > 0 ? static_cast<int>(count) : end;
        },
        form));
}

static void judge_ranges(const aes3::words &block) {
    // Three blocks, with a wrong cell in the second, and three cells of a fourth.
    aes3::cells cells;
    aes3::encode(block, true, cells);
    std::vector<std::uint8_t> raw, text;
    for (int i = 0; i < 3 * AES3_BLOCK_WORDS; i++) {
        const std::uint64_t word = cells[i % AES3_BLOCK_WORDS] ^ (i == AES3_BLOCK_WORDS + 10 ? 1u << 20 : 0);
        std::uint8_t octets[8], line[65];
        aes3_octets_of_word(word, octets);
        aes3_line_of_word(word, line);
        raw.insert(raw.end(), octets, octets + 8);
        text.insert(text.end(), line, line + 65);
    }
    std::vector<std::uint8_t> packed = raw, rejected = text, counted = raw;
    packed.insert(packed.end(), {0, 5});
    counted.push_back(0);
    const std::string first = "1 at 0 " + std::to_string(block[0]) + "\n3 at 24576\n", third = "1 at 49152 " + std::to_string(block[0]) + "\n";
    const std::string more = first + third + "ended 0 of 73731", whole = first + third + "ended 0 of 73728";
    rejected.insert(rejected.end(), {'0', 'x', '0', '0'});
    text.insert(text.end(), {'0', ' ', '0', '\r', '\n', '0'});
    for (const std::size_t size : {std::size_t(1), std::size_t(2), std::size_t(3), std::size_t(1000), std::size_t(100000)}) {
        judge("packed cells in pieces", lines_in_pieces(packed, size, aes3::form::packed) == more);
        judge("text in pieces", lines_in_pieces(text, size, aes3::form::text) == more);
        judge("octets in pieces", lines_in_pieces(raw, size, aes3::form::raw) == whole);
        judge("whole packed cells in pieces", lines_in_pieces(counted, size, aes3::form::packed) == whole);
        judge("a byte that is no cell",
            lines_in_pieces(rejected, size, aes3::form::text) == first + third + "rejected " + std::to_string(3 * 384 * 65 + 1) + " of 73729");
        judge("a wrong end",
            lines_in_pieces(raw, size, aes3::form::packed) == first + "rejected " + std::to_string(raw.size()) + " of 73712");
        judge("a reader that fails", lines_in_pieces(raw, size, aes3::form::raw, -1) == first + "failed 0 of 73728");
        judge("a reader of text that fails", lines_in_pieces(text, size, aes3::form::text, -1) == first + third + "failed 0 of 73731");
    }
    judge("memory", lines_of(aes3::reports(raw)) == whole && lines_of(aes3::reports(packed, aes3::form::packed)) == more);
    judge("memory with a length", lines_of(aes3::reports({raw.data(), 0})) == "ended 0 of 0");
    const std::uint8_t none[] = {0}, wrong[] = {1}, high[] = {0, 8}, unused[] = {1, 1}, most[] = {0x80, 7};
    judge("no packed cells", lines_of(aes3::reports(none, aes3::form::packed)) == "ended 0 of 0");
    judge("one packed cell", lines_of(aes3::reports(most, aes3::form::packed)) == "ended 0 of 1");
    judge("a wrong number",
        lines_of(aes3::reports(wrong, aes3::form::packed)) == "rejected 1 of 0" &&
        lines_of(aes3::reports(high, aes3::form::packed)) == "rejected 2 of 0");
    judge("unused cells", lines_of(aes3::reports(unused, aes3::form::packed)) == "rejected 2 of 0");
    judge("no octet",
        lines_of(aes3::reports({none, 0}, aes3::form::packed)) == "rejected 0 of 0" &&
        lines_of(aes3::reports({none, 0}, aes3::form::text)) == "ended 0 of 0");
#ifdef __cpp_lib_span
    static_assert(std::ranges::input_range<decltype(aes3::reports(std::span<const std::uint8_t>()))>);
    judge("a std::span",
        lines_of(aes3::reports(std::span(raw))) == whole &&
        lines_of(aes3::reports(std::span<const std::uint8_t>(raw).first(0))) == "ended 0 of 0");
    auto range = aes3::reports(std::span(raw));
    judge("count_if", std::ranges::count_if(range, [](const aes3::report &it) { return it.kind == AES3_FAULT; }) == 1);
#endif
}

#ifdef __cpp_lib_span
// Each call with std::span in and out, beside the same one with arrays.
static void judge_spans(const aes3::words &block, const aes3::status &status) {
    std::array<std::uint32_t, AES3_BLOCK_WORDS> words{}, made{};
    std::array<std::uint64_t, AES3_BLOCK_WORDS> cells{};
    std::array<std::int32_t, AES3_BLOCK_WORDS> samples{};
    std::array<std::uint8_t, AES3_STATUS_BYTES> bits{}, other{};
    std::ranges::copy(status, other.begin());
    const auto &given = other;
    judge("set_status", aes3::set_status(words, 1, given) == AES3_BLOCK_WORDS && std::ranges::equal(words, block));
    judge("status_of", aes3::status_of(words, 1, bits) == AES3_BLOCK_WORDS && bits == other);
    judge("set_user",
        aes3::set_user(words, 2, given) == AES3_BLOCK_WORDS && aes3::user_of(words, 2, bits) == AES3_BLOCK_WORDS && bits == other);
    judge("set_validity",
        aes3::set_validity(words, 2, given) == AES3_BLOCK_WORDS && aes3::validity_of(words, 2, bits) == AES3_BLOCK_WORDS && bits == other);
    samples.fill(0x123400);
    aes3::block_of(samples, made);
    judge("samples_of",
        aes3::samples_of(made, samples) == AES3_BLOCK_WORDS && samples[383] == 0x123400 && made[383] == (0x1234u << 4 | 1u << 31));
    aes3_professional professional;
    aes3_consumer consumer;
    judge("fields",
        aes3::fields(given, professional) && !aes3::fields(given, consumer) && aes3::status_of(professional, bits) && bits == other);
    std::vector<char> text(AES3_STATUS_TEXT);
    judge("text_of", aes3::text_of(given, std::span(text).first<AES3_STATUS_TEXT>()) > 200 && text[1] == 'p');
    judge("check", aes3::check(given) == AES3_GOOD && aes3::check_byte(given) == other[23]);
    judge("set_field", aes3::set_field(bits, "local=7") == AES3_SET_DONE && aes3::set_field(bits, "local=-7", 8) == AES3_SET_UNKNOWN);
    std::vector<std::uint64_t> many(2 * AES3_BLOCK_WORDS);
    const std::span line(many);
    judge("encode", aes3::encode(words, false, cells) == AES3_BLOCK_WORDS);
    judge("encode a part", aes3::encode(words, false, line.subspan<AES3_BLOCK_WORDS, AES3_BLOCK_WORDS>()) == AES3_BLOCK_WORDS);
    judge("encode the same", std::ranges::equal(cells, line.last(AES3_BLOCK_WORDS)) && many[0] == 0);
    aes3::lock lock;
    int count = 0;
    const auto tell = [&](const aes3::report &it) { count += std::ranges::equal(aes3::words_of(it), words); };
    judge("take",
        lock.take(std::span<const std::uint64_t>(line).last(AES3_BLOCK_WORDS), tell) && lock.take(line.last(1), tell) && count == 1);
    std::array<std::uint8_t, AES3_WAV_OCTETS> header{};
    std::uint64_t at = 0;
    aes3_wav wav;
    const std::uint32_t length = aes3::write_wav(24, 48000, 2, header);
    judge("write_wav", length == 104 && aes3::read_wav(std::span(header).first(length), wav, at) == AES3_WAV_HEADER && wav.len == 12);
    const std::array<std::uint8_t, 12> frames{1, 2, 3, 4, 5, 6, 7, 8, 9, 10, 11, 12};
    judge("samples_of a file",
        aes3::samples_of(wav, 1, 2, std::span(frames), std::span(samples).first(3)) == 1 && samples[1] == 0x06050400 &&
        samples[2] == 0x123400);
    const std::span<const std::uint8_t> back = aes3::span<const std::uint8_t>(frames);
    judge("a std::span of a span", back.data() == frames.data() && back.size() == frames.size());
}
#endif

// The calls for many blocks, with one.
static void judge_many(const aes3::words &block) {
    std::uint8_t made[AES3_BLOCK_OCTETS + 1] = {}, eight[8];
    judge("encode_blocks", aes3::encode_blocks(block, false, made) == AES3_BLOCK_WORDS && made[AES3_BLOCK_OCTETS] == 0);
    aes3::cells cells;
    aes3::encode(block, false, cells);
    aes3_octets_of_word(cells[383], eight);
    judge("its octets", std::memcmp(made + 8 * 383, eight, 8) == 0);
    aes3::words back;
    judge("subframes_of_blocks", aes3::subframes_of_blocks(block, AES3_SUBFRAMES_ALSA, made) == AES3_BLOCK_WORDS && made[0] == 8);
    judge("blocks_of_subframes", aes3::blocks_of_subframes({made, 1536}, AES3_SUBFRAMES_ALSA, back) == AES3_BLOCK_WORDS);
    judge("the same block", std::memcmp(back, block, sizeof back) == 0);
    judge("samples_of_blocks", aes3::samples_of_blocks(block, AES3_SAMPLES_S16, made) == AES3_BLOCK_WORDS);
    judge("blocks_of_samples", aes3::blocks_of_samples({made, 768}, AES3_SAMPLES_S16, back) == AES3_BLOCK_WORDS && back[0] == 0);
    back[7] = 1u << 4, made[8] = 1;
    judge("blocks_fit", aes3::blocks_fit(back, AES3_SAMPLES_S16) == 7 && aes3::blocks_fit(back, AES3_SAMPLES_S24) == AES3_BLOCK_WORDS);
    judge("samples_fit", aes3::samples_fit({made, 768}, AES3_SAMPLES_S32) == 8 && aes3::samples_fit({made, 768}, AES3_SAMPLES_S16) == 768);
}

int main() {
    // The C bits of a professional status in a block of zeros: each word gets its parity bit.
    aes3::words block = {};
    aes3::status status = {};
    status[0] = 0x85, status[1] = 0x02, status[2] = 0x2c;
    status[23] = aes3::check_byte(status);
    judge("set_status", aes3::set_status(block, 1, status) == AES3_BLOCK_WORDS);
    judge("its words", block[0] == 3u << 30 && block[1] == 0 && block[2] == 0 && block[4] == 3u << 30);

    aes3::cells cells;
    judge("encode", aes3::encode(block, false, cells) == AES3_BLOCK_WORDS);
    judge_many(block);
    aes3::status found;
    judge("status_of", aes3::status_of(block, 1, found) == AES3_BLOCK_WORDS);
    bool is_same = true;
    for (int i = 0; i < AES3_STATUS_BYTES; i++)
        is_same &= found[i] == status[i];
    judge("the status found", is_same);
    aes3::words carried = {};
    judge("set_user", aes3::set_user(carried, 2, status) == AES3_BLOCK_WORDS && carried[1] == 5u << 29);
    judge("user_of", aes3::user_of(carried, 2, found) == AES3_BLOCK_WORDS && found[0] == 0x85 && found[1] == 0x02);
    judge("set_validity", aes3::set_validity(carried, 1, status) == AES3_BLOCK_WORDS && carried[0] == 9u << 28);
    judge("validity_of", aes3::validity_of(carried, 2, found) == AES3_BLOCK_WORDS && found[0] == 0);
    aes3::samples sound;
    judge("samples_of", aes3::samples_of(carried, sound) == AES3_BLOCK_WORDS && sound[0] == 0);
    sound[1] = -256;
    aes3::words heard;
    aes3::block_of(sound, heard);
    judge("block_of", heard[0] == 0 && heard[1] == 0x0FFFFFF0 && aes3::samples_of(heard, sound) == AES3_BLOCK_WORDS && sound[1] == -256);
    judge("no status", aes3::status_of(carried, 1, found) == AES3_BLOCK_WORDS && found[0] == 0);
    judge("status_of again", aes3::status_of(block, 1, found) == AES3_BLOCK_WORDS);
    aes3_professional professional;
    aes3_consumer consumer;
    char text[AES3_STATUS_TEXT];
    judge("text_of", aes3::text_of(found, text) > 200 && text[0] == ' ' && text[1] == 'p');
    judge("professional", aes3::fields(found, professional) && professional.rate == 2);
    judge("no consumer", !aes3::fields(found, consumer));
    judge("check", aes3::check(found) == AES3_GOOD);
    judge("text_of a check", std::string(aes3::text_of(aes3::check(found))) == "good");
    judge("set_field", aes3::set_field(found, "origin=BBC") == AES3_SET_DONE && found[8] == 'C' && found[9] == ' ');
    judge("set_field of characters", aes3::set_field(found, "origin=BBC", 9) == AES3_SET_DONE && found[8] == ' ');
    judge("text_of a setting", std::string(aes3::text_of(aes3::set_field(found, "no=1"))) == "no field is printed so");
    judge("text_of an answer", std::string(aes3::text_of(AES3_WAV_NOT_WAVE)) == "this RIFF file is no WAV file");
    aes3::report fault = {};
    fault.kind = AES3_FAULT, fault.why = AES3_UNCLOSED;
    judge("texts of a report", std::string(aes3::kind_text(fault)) + " " + aes3::why_text(fault) == "fault unclosed");

    // The block comes back from its cells, given as an array, as a pointer and a length, and as what has both.
    int count = 0;
    const auto tell = [&](const aes3::report &it) {
        is_same = it.kind == AES3_WHOLE && it.at == 0 && it.before == 0;
        for (int i = 0; i < AES3_BLOCK_WORDS; i++)
            is_same &= it.words[i] == block[i];
        judge("the block found", is_same);
        count++;
    };
    std::array<std::uint64_t, AES3_BLOCK_WORDS> other;
    for (int i = 0; i < AES3_BLOCK_WORDS; i++)
        other[i] = cells[i];
    aes3::lock first, second, third;
    judge("take", first.take(cells, tell) && second.take({cells, AES3_BLOCK_WORDS}, tell) && third.take(other, tell));
    const aes3::lock copy = first;
    copy.finish(tell);
    second.finish(tell);
    third.finish(tell);
    judge("seen", copy.seen() == AES3_BLOCK_CELLS);
    judge("a report of each", count == 3);

    // The same of octets, and of the first cell behind them, which decides the block.
    std::uint8_t octets[8 * AES3_BLOCK_WORDS + 1];
    for (int i = 0; i < AES3_BLOCK_WORDS; i++)
        aes3_octets_of_word(cells[i], octets + 8 * i);
    octets[8 * AES3_BLOCK_WORDS] = octets[0];
    aes3::lock fourth;
    aes3::words made = {};
    const bool took = fourth.take_octets(octets, [&](const aes3::report &it) {
        count += it.kind == AES3_WHOLE && it.at == 0;
        fourth.block(made);
    });
    for (int i = 0; i < AES3_BLOCK_WORDS; i++)
        is_same &= made[i] == block[i];
    judge("take_octets", took && is_same && count == 4 && fourth.seen() == AES3_BLOCK_CELLS + 8);

    // Gaps: two of a dead line while it is dead, seven cells before a whole block, none behind it, and three at the end.
    aes3::account account;
    std::uint64_t gaps[2] = {}, lost = 0;
    const auto tell_gap = [&](const aes3::gap &it) { gaps[0]++, gaps[1] += it.cells, lost += it.counts; };
    account.passed(3 * AES3_BLOCK_CELLS, tell_gap);
    judge("gaps that passed", gaps[0] == 2 && gaps[1] == 2 * AES3_BLOCK_CELLS && lost == 2);
    aes3::report whole = {};
    whole.kind = AES3_WHOLE;
    whole.at = 2 * AES3_BLOCK_CELLS + 7;
    account.before(whole, tell_gap);
    account.passed(3 * AES3_BLOCK_CELLS + 8, tell_gap);
    account.end(3 * AES3_BLOCK_CELLS + 10, tell_gap);
    judge("gaps", gaps[0] == 4 && gaps[1] == 2 * AES3_BLOCK_CELLS + 10 && lost == 2);

    // Events: a line that locks, slips and is lost.
    aes3::watch watch;
    std::string events;
    const auto tell_event = [&](const aes3::event &it) { events += aes3::kind_text(it) + (" at " + std::to_string(it.at)) + "\n"; };
    watch.passed(2 * AES3_BLOCK_CELLS - 1, tell_event);
    whole.at = 100;
    watch.take(whole, tell_event);
    whole.at += AES3_BLOCK_CELLS + 7;
    watch.take(whole, tell_event);
    watch.passed(3 * AES3_BLOCK_CELLS + 107, tell_event);
    watch.passed(4 * AES3_BLOCK_CELLS + 107, tell_event);
    watch.end(5 * AES3_BLOCK_CELLS, tell_event);
    judge("events", events == "locked at 100\nslipped at 24683\nlost at 49259\nend at 122880\n");

    // Sums by periods of two blocks' cells: two that end before a block, one that no later cell changes, and the last, which is shorter.
    aes3::sums sums(2 * AES3_BLOCK_CELLS), none(0);
    std::uint64_t counted[4] = {}; // sums, whole blocks, lost cells, and where the last period ended
    const auto tell_sum = [&](const aes3::sum &it) {
        counted[0]++;
        counted[1] += it.whole;
        counted[2] += it.lost;
        counted[3] = it.to;
    };
    judge("periods", sums.ok() && !none.ok());
    none.end(5 * AES3_BLOCK_CELLS, tell_sum);
    whole.at = 4 * AES3_BLOCK_CELLS + 100;
    sums.take(whole, tell_sum);
    judge("sums before a block", counted[0] == 2 && counted[1] == 0 && counted[2] == 4 * AES3_BLOCK_CELLS);
    sums.passed(7 * AES3_BLOCK_CELLS - 1, tell_sum);
    judge("sums that are not certain", counted[0] == 2);
    sums.passed(7 * AES3_BLOCK_CELLS, tell_sum);
    judge("sums that passed", counted[0] == 3 && counted[1] == 1 && counted[3] == 6 * AES3_BLOCK_CELLS);
    sums.end(7 * AES3_BLOCK_CELLS, tell_sum);
    judge("sums", counted[0] == 4 && counted[1] == 1 && counted[3] == 7 * AES3_BLOCK_CELLS);

    // The levels of a block with one sample, of full scale.
    aes3::levels levels;
    judge("no levels", levels.blocks() == 0 && levels.peak(1) == AES3_NO_LEVEL && levels.rms(2) == AES3_NO_LEVEL);
    aes3::report loud{};
    loud.kind = AES3_WHOLE;
    loud.words[1] = UINT32_C(0x800000) << 4;
    levels.add(loud);
    judge("the peak", levels.blocks() == 1 && levels.greatest(2) == 8388608 && levels.peak(2) == 0 && levels.peak(1) == AES3_NO_LEVEL);
    judge("the RMS", levels.rms(2) == 228 && levels.rms(1) == AES3_NO_LEVEL);

    // The same once more, of samples: four of each cell, in bit 2.
    static std::uint8_t samples[4 * AES3_BLOCK_CELLS], packed[AES3_BLOCK_CELLS];
    for (int i = 0; i < 4 * AES3_BLOCK_CELLS; i++)
        samples[i] = static_cast<std::uint8_t>((cells[i / 256] >> (i / 4 % 64) & 1) << 2);
    aes3_capture capture;
    // No edge tells where the first run began, so its cells are counted by the period of those behind it.
    bool came = aes3::recover(samples, 1, 2, packed, capture) && capture.cells == AES3_BLOCK_CELLS;
    for (int i = 0; i < 8 * AES3_BLOCK_WORDS; i++)
        came &= packed[i] == octets[i];
    judge("recover", came && capture.octets == 8 * AES3_BLOCK_WORDS + 1);

    // A header as it is written, and read; and a frame of 16 bits behind it.
    std::uint8_t header[AES3_WAV_OCTETS];
    const std::uint8_t frame[4] = {1, 2, 3, 4};
    std::int32_t pair[2];
    aes3_wav wav;
    std::uint64_t place = 0;
    const std::uint32_t length = aes3::write_wav(16, 44100, 1, header);
    judge("write_wav", length == 80);
    judge("read_wav", aes3::read_wav({header, length}, wav, place) == AES3_WAV_HEADER && wav.rate == 44100 && wav.len == 4);
    judge("samples_of", aes3::samples_of(wav, 2, 1, frame, pair) == 1 && pair[0] == 0x04030000 && pair[1] == 0x02010000);

    judge_ranges(block);
#ifdef __cpp_lib_span
    judge_spans(block, status);
    std::puts("with std::span");
#endif
    block[7] = 1u << 28;
    judge("an unlawful word", aes3::encode(block, false, cells) == 7 && aes3::status_of(block, 2, found) == 7);
    return !is_right;
}
