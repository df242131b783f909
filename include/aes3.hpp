// aes3.hpp - aes3.h for C++11 and later. A lock is ready once it is declared, memory comes as a span, arrays have their lengths,
// and reports go to a function of yours, or come as a range. Nothing here allocates, throws or needs a library of C++. With C++20
// each memory that is taken or written may also be a std::span.
#pragma once
#include "aes3.h"
#include <cstddef>
#include <cstdint>
#include <cstring>
#include <iterator>
#if defined(__has_include) && __cplusplus >= 202002L
#if __has_include(<span>)
#include <span>
#endif
#endif

namespace aes3 {

using report = aes3_report;
using gap = aes3_gap;
using event = aes3_event;
using sum = aes3_sum;
using words = uint32_t[AES3_BLOCK_WORDS];  // a block
using cells = uint64_t[AES3_BLOCK_WORDS];  // its cells
using samples = int32_t[AES3_BLOCK_WORDS]; // its samples, channel 1 and channel 2 of each frame
using status = uint8_t[AES3_STATUS_BYTES]; // a channel's status, or its V or its U bits

// Memory of someone else: a pointer with a length, an array, or what has both as std::vector and std::span do.
template <class T> struct span {
    T *data;
    std::size_t size;
    span(T *begin, std::size_t count) : data(begin), size(count) {}
    template <std::size_t N> span(T (&array)[N]) : data(array), size(N) {}
    template <class Many, class = decltype(((Many *)nullptr)->data())> span(Many &many) : data(many.data()), size(many.size()) {}
#ifdef __cpp_lib_span
    // From a std::span, of any extent, and to one.
    template <class Item, std::size_t N> span(std::span<Item, N> many) : data(many.data()), size(many.size()) {}
    operator std::span<T>() const { return {data, size}; }
#endif
};

// Finds blocks in cells, which come one after the other, and calls tell(const report &) for each report. A call that takes cells
// returns false if the lock has seen 2^43 of them. A copy goes on from there by itself.
class lock {
    aes3_lock state;

  public:
    lock() { aes3_lock_init(&state); }
    uint64_t seen() const { return aes3_lock_seen(&state); }
    // Takes words of 64 cells, or the first `count` cells of a word, 64 at most.
    template <class Tell> bool take(span<const uint64_t> from, Tell &&tell);
    template <class Tell> bool push(uint64_t word, uint32_t count, Tell &&tell);
    // Takes the cells of octets, eight an octet, the first in its highest bit. The reports have no words; block() puts those of
    // the latest one, until the lock takes more cells.
    template <class Tell> bool take_octets(span<const uint8_t> from, Tell &&tell);
    void block(words &to) const { aes3_lock_block(&state, to); }
#ifdef __cpp_lib_span
    void block(std::span<uint32_t, AES3_BLOCK_WORDS> to) const { aes3_lock_block(&state, to.data()); }
#endif
    // Tells the report that the end of the cells decides, if it decides one.
    template <class Tell> void finish(Tell &&tell) const;
};

// Gives the gaps between whole blocks, as `aes3 check --gaps` does, to tell(const gap &): those before each report of the lock, those
// that no later cell changes, and at the end of the cells all that are left.
class account {
    aes3_account state;

  public:
    account() { aes3_account_init(&state); }
    template <class Tell> void before(const report &told, Tell &&tell) {
        for (gap it; aes3_account_before(&state, &told, &it);)
            tell(it);
    }
    template <class Tell> void passed(uint64_t seen, Tell &&tell) {
        for (gap it; aes3_account_passed(&state, seen, &it);)
            tell(it);
    }
    template <class Tell> void end(uint64_t seen, Tell &&tell) {
        for (gap it; aes3_account_end(&state, seen, &it);)
            tell(it);
    }
};

// Gives the events of a line, as `aes3 watch` does, to tell(const event &): those of each report of the lock, a loss that no later cell
// changes, and at the end of the cells what is left. The report of a whole block has its words.
class watch {
    aes3_watch state;

    template <class Tell> static void hand(const event *told, uint32_t count, Tell &tell) {
        for (uint32_t i = 0; i < count; i++)
            tell(told[i]);
    }

  public:
    watch() { aes3_watch_init(&state); }
    template <class Tell> void take(const report &told, Tell &&tell) {
        event put[AES3_EVENTS];
        hand(put, aes3_watch_report(&state, &told, put), tell);
    }
    template <class Tell> void passed(uint64_t seen, Tell &&tell) {
        event put[AES3_EVENTS];
        hand(put, aes3_watch_passed(&state, seen, put), tell);
    }
    template <class Tell> void end(uint64_t seen, Tell &&tell) const {
        event put[AES3_EVENTS];
        hand(put, aes3_watch_end(&state, seen, put), tell);
    }
};

// Gives the sums of a line by periods of `every` cells, as `aes3 watch --every` does, to tell(const sum &): those of the periods that end
// before each report of the lock, those that no later cell changes, and at the end of the cells all that are left. The report of a whole
// block has its words. If `every` is 0 or above 2^40, there are no sums, and ok() is false.
class sums {
    aes3_sums state;
    bool made;

  public:
    explicit sums(uint64_t every) : made(aes3_sums_init(&state, every)) {}
    bool ok() const { return made; }
    template <class Tell> void take(const report &told, Tell &&tell) {
        for (sum it; aes3_sums_before(&state, &told, &it);)
            tell(it);
    }
    template <class Tell> void passed(uint64_t seen, Tell &&tell) {
        for (sum it; aes3_sums_passed(&state, seen, &it);)
            tell(it);
    }
    template <class Tell> void end(uint64_t seen, Tell &&tell) {
        for (sum it; aes3_sums_end(&state, seen, &it);)
            tell(it);
    }
};

// Counts the samples of each channel of whole blocks, given their reports with the words.
class levels {
    aes3_levels state;

  public:
    levels() { aes3_levels_init(&state); }
    void add(const report &whole) { aes3_levels_add(&state, whole.words); }
    // How many blocks were added, and the greatest magnitude of a sample of a channel, 1 or 2: as `aes3 info` prints it.
    uint64_t blocks() const { return state.blocks; }
    uint32_t greatest(uint8_t channel) const { return channel == 1 ? state.first.peak : state.second.peak; }
    // The level of a channel in tenths of a decibel below full scale; AES3_NO_LEVEL if all its samples are 0.
    uint32_t peak(uint8_t channel) const { return aes3_levels_peak(&state, channel); }
    uint32_t rms(uint8_t channel) const { return aes3_levels_rms(&state, channel); }
};

// How many frames are missing between a whole block and the next one, so that each keeps its time.
inline uint64_t frames_between(uint64_t first, uint64_t before, uint64_t at) { return aes3_frames_between(first, before, at); }

// Reverses the bits of octets, whose first cell is then in the highest bit if it was in the lowest.
inline void reverse_octets(span<uint8_t> octets) { aes3_reverse_octets(octets.data, octets.size); }

// How the cells of a line come as octets. raw: eight cells an octet, the first in its highest bit. packed: the same, and one
// last octet counts the unused cells before it. text: a cell is 0 or 1; line feeds, carriage returns and spaces are skipped.
enum class form { raw, packed, text };

// What a range of reports came to. going: more may follow. ended: all cells were taken. rejected: a byte is not a cell, or packed
// cells end wrongly. failed: the reader failed. full: the lock has seen 2^43 cells. Only after `ended` are the reports those of
// the whole input.
enum class outcome { going, ended, rejected, failed, full };

// The reports of a line, as a range to go through once, which `reports` below makes. A report of a whole block has its words.
// A reader is called as read(octets, room). It puts up to `room` octets, and answers how many: 0 at the end, a negative number if
// it failed.
template <class Read> class report_range {
    Read read;
    form of;
    aes3_lock state;
    report told;
    std::uint8_t octets[4098];                 // cells that were read
    std::size_t held = 0, ready = 0, first = 0; // octets held, those the lock may take, and cells of these that it took
    std::uint32_t rest = 0, rest_count = 0;    // the fewer than eight cells after them, the first in bit 0
    std::uint64_t done = 0, wrong = 0;         // octets read, and the one that is wrong
    outcome how = outcome::going, next_how = outcome::going;

    void fill();
    void add_text(std::uint8_t *text, std::size_t count);
    void end_packed();
    bool step();

  public:
    class iterator {
        report_range *from;

      public:
        using iterator_category = std::input_iterator_tag;
        using value_type = report;
        using difference_type = std::ptrdiff_t;
        using pointer = const report *;
        using reference = const report &;
        explicit iterator(report_range *range = nullptr) : from(range) {}
        reference operator*() const { return from->told; }
        pointer operator->() const { return &from->told; }
        iterator &operator++() {
            if (!from->advance())
                from = nullptr;
            return *this;
        }
        void operator++(int) { ++*this; }
        friend bool operator==(const iterator &one, const iterator &other) { return one.from == other.from; }
        friend bool operator!=(const iterator &one, const iterator &other) { return one.from != other.from; }
    };

    report_range(Read reader, form which) : read(reader), of(which) { aes3_lock_init(&state); }
    // The first report that is left. The range must not move as long as an iterator is used.
    iterator begin() { return advance() ? iterator(this) : end(); }
    iterator end() { return iterator(); }
    // The same without an iterator: whether there is one more report, which is last() then.
    bool advance();
    const report &last() const { return told; }
    // How many cells were taken: those up to the cell that decides the last report.
    std::uint64_t seen() const { return aes3_lock_seen(&state); }
    outcome result() const { return how; }
    // If it was rejected, the number of the byte that is not a cell, or how many octets end wrongly.
    std::uint64_t wrong_at() const { return wrong; }
};

// A reader of octets in memory.
class memory_reader {
    span<const std::uint8_t> left;

  public:
    explicit memory_reader(span<const std::uint8_t> octets) : left(octets) {}
    std::ptrdiff_t operator()(std::uint8_t *to, std::size_t room) {
        const std::size_t count = left.size < room ? left.size : room;
        if (count > 0)
            std::memcpy(to, left.data, count);
        left = {left.data + count, left.size - count};
        return static_cast<std::ptrdiff_t>(count);
    }
};

// The reports of octets in memory, which must stay there, and of octets that a reader puts.
inline report_range<memory_reader> reports(span<const std::uint8_t> octets, form of = form::raw) {
    return report_range<memory_reader>(memory_reader(octets), of);
}
template <class Read, class = decltype((*(Read *)nullptr)((std::uint8_t *)nullptr, std::size_t()))>
report_range<Read> reports(Read reader, form of = form::raw) {
    return report_range<Read>(reader, of);
}

// Many blocks at once, from words to octets and back. Each answers 384 for each block that is there and has room, or the number
// of the first word that is not valid; divided by 384 that is how many blocks were put. Cells come as octets; `form` is an
// aes3_subframe_form or an aes3_sample_form.
inline std::size_t encode_blocks(span<const uint32_t> from, bool before, span<uint8_t> to) {
    return aes3_encode_blocks(from.data, from.size, before, to.data, to.size);
}
inline std::size_t subframes_of_blocks(span<const uint32_t> from, uint8_t form, span<uint8_t> to) {
    return aes3_subframes_of_blocks(from.data, from.size, form, to.data, to.size);
}
inline std::size_t blocks_of_subframes(span<const uint8_t> from, uint8_t form, span<uint32_t> to) {
    return aes3_blocks_of_subframes(from.data, from.size, form, to.data, to.size);
}
inline std::size_t samples_of_blocks(span<const uint32_t> from, uint8_t form, span<uint8_t> to) {
    return aes3_samples_of_blocks(from.data, from.size, form, to.data, to.size);
}
inline std::size_t blocks_of_samples(span<const uint8_t> from, uint8_t form, span<uint32_t> to) {
    return aes3_blocks_of_samples(from.data, from.size, form, to.data, to.size);
}

// The number of the first word whose sample would lose bits in a form, or how many words there are; and of samples in a form the
// number of the lowest octet of the first that has more than 24 bits, or how many octets there are.
inline std::size_t blocks_fit(span<const uint32_t> from, uint8_t form) { return aes3_blocks_fit(from.data, from.size, form); }
inline std::size_t samples_fit(span<const uint8_t> from, uint8_t form) { return aes3_samples_fit(from.data, from.size, form); }

// Of a block, and of its channel 1 or 2. Each answers 384, the number of the first word that is not valid, or
// AES3_NO_CHANNEL where the channel is another number.
inline uint32_t encode(const words &block, bool before, cells &to) { return aes3_encode_block(block, before, to); }
inline uint32_t status_of(const words &block, uint8_t channel, status &to) { return aes3_block_status(block, channel, to); }
inline uint32_t validity_of(const words &block, uint8_t channel, status &to) { return aes3_block_validity(block, channel, to); }
inline uint32_t user_of(const words &block, uint8_t channel, status &to) { return aes3_block_user(block, channel, to); }
inline uint32_t set_status(words &block, uint8_t channel, const status &to) { return aes3_block_set_status(block, channel, to); }
inline uint32_t set_validity(words &block, uint8_t channel, const status &to) {
    return aes3_block_set_validity(block, channel, to);
}
inline uint32_t set_user(words &block, uint8_t channel, const status &to) { return aes3_block_set_user(block, channel, to); }
inline uint32_t samples_of(const words &block, samples &to) { return aes3_block_samples(block, to); }
inline void block_of(const samples &from, words &to) { aes3_block_of_samples(from, to); }
#ifdef __cpp_lib_span
// The same of memory with a length that is known: a std::array, or what first<N>() and subspan<A, N>() of a std::span give.
template <class T> using block_span = std::span<T, AES3_BLOCK_WORDS>;
template <class T> using status_span = std::span<T, AES3_STATUS_BYTES>;
inline block_span<const uint32_t> words_of(const report &whole) { return block_span<const uint32_t>(whole.words); }
inline uint32_t encode(block_span<const uint32_t> block, bool before, block_span<uint64_t> to) {
    return aes3_encode_block(block.data(), before, to.data());
}
inline uint32_t status_of(block_span<const uint32_t> block, uint8_t channel, status_span<uint8_t> to) {
    return aes3_block_status(block.data(), channel, to.data());
}
inline uint32_t validity_of(block_span<const uint32_t> block, uint8_t channel, status_span<uint8_t> to) {
    return aes3_block_validity(block.data(), channel, to.data());
}
inline uint32_t user_of(block_span<const uint32_t> block, uint8_t channel, status_span<uint8_t> to) {
    return aes3_block_user(block.data(), channel, to.data());
}
inline uint32_t set_status(block_span<uint32_t> block, uint8_t channel, status_span<const uint8_t> to) {
    return aes3_block_set_status(block.data(), channel, to.data());
}
inline uint32_t set_validity(block_span<uint32_t> block, uint8_t channel, status_span<const uint8_t> to) {
    return aes3_block_set_validity(block.data(), channel, to.data());
}
inline uint32_t set_user(block_span<uint32_t> block, uint8_t channel, status_span<const uint8_t> to) {
    return aes3_block_set_user(block.data(), channel, to.data());
}
inline uint32_t samples_of(block_span<const uint32_t> block, block_span<int32_t> to) {
    return aes3_block_samples(block.data(), to.data());
}
inline void block_of(block_span<const int32_t> from, block_span<uint32_t> to) { aes3_block_of_samples(from.data(), to.data()); }
#endif

// Of a status: its fields, where it is for that use, and its check byte.
inline bool fields(const status &of, aes3_professional &to) { return aes3_status_professional(of, &to); }
inline bool fields(const status &of, aes3_consumer &to) { return aes3_status_consumer(of, &to); }
inline bool status_of(const aes3_professional &fields, status &to) { return aes3_status_of_professional(&fields, to); }
inline bool status_of(const aes3_consumer &fields, status &to) { return aes3_status_of_consumer(&fields, to); }
// Its text as `aes3 show` writes it: answers how many characters.
inline uint32_t text_of(const status &of, char (&to)[AES3_STATUS_TEXT]) { return aes3_status_text(of, to); }
// Sets a field by the text `NAME=WORD`, of so many characters or up to its 0, as `aes3 rewrite --set` does.
inline aes3_set set_field(status &of, const char *text, std::size_t count) {
    return static_cast<aes3_set>(aes3_status_set(of, text, count));
}
inline aes3_set set_field(status &of, const char *text) { return set_field(of, text, std::strlen(text)); }
inline uint8_t check_byte(const status &of) { return aes3_status_check_byte(of); }
inline aes3_check check(const status &of) { return static_cast<aes3_check>(aes3_status_check_state(of)); }
#ifdef __cpp_lib_span
inline bool fields(status_span<const uint8_t> of, aes3_professional &to) { return aes3_status_professional(of.data(), &to); }
inline bool fields(status_span<const uint8_t> of, aes3_consumer &to) { return aes3_status_consumer(of.data(), &to); }
inline bool status_of(const aes3_professional &fields, status_span<uint8_t> to) {
    return aes3_status_of_professional(&fields, to.data());
}
inline bool status_of(const aes3_consumer &fields, status_span<uint8_t> to) { return aes3_status_of_consumer(&fields, to.data()); }
inline uint32_t text_of(status_span<const uint8_t> of, std::span<char, AES3_STATUS_TEXT> to) {
    return aes3_status_text(of.data(), to.data());
}
inline aes3_set set_field(status_span<uint8_t> of, const char *text, std::size_t count) {
    return static_cast<aes3_set>(aes3_status_set(of.data(), text, count));
}
inline aes3_set set_field(status_span<uint8_t> of, const char *text) { return set_field(of, text, std::strlen(text)); }
inline uint8_t check_byte(status_span<const uint8_t> of) { return aes3_status_check_byte(of.data()); }
inline aes3_check check(status_span<const uint8_t> of) { return static_cast<aes3_check>(aes3_status_check_state(of.data())); }
#endif

// Recovers the cells of a line from all samples of a capture, packed; false where they don't fit.
inline bool recover(span<const uint8_t> samples, uint8_t unit, uint8_t bit, span<uint8_t> to, aes3_capture &found) {
    return aes3_capture_cells(samples.data, samples.size, unit, bit, 0, to.data, to.size, &found);
}

// Recovers the cells of a line from a capture that comes in pieces. A copy goes on from there by itself.
class recovery {
    aes3_recovery state;

  public:
    // A cell is `period` 65,536ths of a sample, or is measured if that is 0.
    explicit recovery(uint64_t period = 0) { aes3_recovery_init(&state, period); }
    // Takes samples, 4,032 octets at most, and puts packed cells: false if samples are left, which are to be given again.
    bool take(span<const uint8_t> samples, uint8_t unit, uint8_t bit, std::size_t &taken, span<uint8_t> to, std::size_t &put) {
        return aes3_recovery_take(&state, samples.data, samples.size, unit, bit, &taken, to.data, to.size, &put);
    }
    // Takes the end, and puts the last cells: false if more are to come, with another call.
    bool finish(span<uint8_t> to, std::size_t &put) { return aes3_recovery_finish(&state, to.data, to.size, &put); }
    aes3_capture figures() const {
        aes3_capture found;
        aes3_recovery_figures(&state, &found);
        return found;
    }
    // Puts the mark after the cells that are decided: false if there is none yet, and after the end.
    bool mark(aes3_mark &to) const { return aes3_recovery_mark(&state, &to); }
};

// The sample at which a cell between two marks of a recovery begins.
inline uint64_t sample_between(const aes3_mark &before, const aes3_mark &after, uint64_t cell) {
    return aes3_sample_between(&before, &after, cell);
}

// The header of a WAV file, read of the file's first octets, and the samples of two channels in octets after it: answers how many frames.
// And one that is written: answers how many octets.
inline aes3_wav_answer read_wav(span<const uint8_t> octets, aes3_wav &to, uint64_t &at) {
    return static_cast<aes3_wav_answer>(aes3_wav_read(octets.data, octets.size, &to, &at));
}
inline std::size_t samples_of(const aes3_wav &wav, uint16_t first, uint16_t second, span<const uint8_t> octets, span<int32_t> to) {
    return aes3_wav_samples(&wav, first, second, octets.data, octets.size, to.data, to.size);
}
inline uint32_t write_wav(uint8_t bits, uint32_t rate, uint64_t frames, uint8_t (&to)[AES3_WAV_OCTETS]) {
    return aes3_wav_write(bits, rate, frames, to);
}
#ifdef __cpp_lib_span
inline uint32_t write_wav(uint8_t bits, uint32_t rate, uint64_t frames, std::span<uint8_t, AES3_WAV_OCTETS> to) {
    return aes3_wav_write(bits, rate, frames, to.data());
}
#endif
inline uint32_t version() { return aes3_version(); }

// Constant texts: the words of a report in its line of `aes3 check`, of an event in that of `aes3 watch`, of a check byte in that of `aes3 show`,
// and what an answer of read_wav says.
inline const char *kind_text(const report &of) { return aes3_kind_text(of.kind); }
inline const char *why_text(const report &of) { return aes3_why_text(of.why); }
inline const char *kind_text(const event &of) { return aes3_event_text(of.kind); }
inline const char *validity_text(const event &of) { return aes3_validity_text(of.validity); }
inline const char *text_of(aes3_check of) { return aes3_check_text(static_cast<uint8_t>(of)); }
inline const char *text_of(aes3_set of) { return aes3_set_text(static_cast<uint8_t>(of)); }
inline const char *text_of(aes3_wav_answer of) { return aes3_wav_answer_text(static_cast<uint8_t>(of)); }

// ---- How the lock does it.

template <class Tell> bool hand(const report &told, Tell &tell) { return told.kind != AES3_NONE && (tell(told), true); }

template <class Tell> bool lock::take(span<const uint64_t> from, Tell &&tell) {
    for (std::size_t at = 0;; at++) {
        at += aes3_lock_take_words(&state, from.data + at, from.size - at);
        if (at == from.size || !push(from.data[at], 64, tell))
            return at == from.size;
    }
}

template <class Tell> bool lock::push(uint64_t word, uint32_t count, Tell &&tell) {
    report told;
    while (count > 0) {
        const uint32_t taken = aes3_lock_push(&state, word, count, &told);
        if (taken == 0)
            return false;
        word = taken < 64 ? word >> taken : 0;
        count -= taken;
        hand(told, tell);
    }
    return true;
}

template <class Tell> bool lock::take_octets(span<const uint8_t> from, Tell &&tell) {
    report told;
    std::size_t at = 0;
    do
        at += aes3_lock_take_octets(&state, from.data, from.size, at, &told);
    while (hand(told, tell));
    return at / 8 == from.size;
}

template <class Tell> void lock::finish(Tell &&tell) const {
    report told;
    aes3_lock_finish(&state, &told);
    hand(told, tell);
}

// ---- How a range of reports does it.

template <class Read> void report_range<Read>::add_text(std::uint8_t *text, std::size_t count) {
    for (std::size_t i = 0; i < count; i++) {
        const std::uint8_t byte = text[i];
        if (byte == '\n' || byte == '\r' || byte == ' ')
            continue;
        if (byte != '0' && byte != '1') {
            wrong = done + i;
            next_how = outcome::rejected;
            return;
        }
        rest |= static_cast<std::uint32_t>(byte & 1) << rest_count;
        if (++rest_count < 8)
            continue;
        // The octets come where text was that is read already.
        std::uint32_t octet = 0;
        for (int bit = 0; bit < 8; bit++)
            octet = octet << 1 | (rest >> bit & 1);
        octets[held++] = static_cast<std::uint8_t>(octet);
        rest = rest_count = 0;
    }
}

// The cells of the last octet but one of packed cells.
template <class Read> void report_range<Read>::end_packed() {
    const std::uint32_t unused = held > 0 ? octets[held - 1] : 8;
    if (unused > 7 || (held == 1 && unused > 0) || (held == 2 && octets[0] & ((1u << unused) - 1))) {
        wrong = done;
        next_how = outcome::rejected;
    } else if (held == 2) {
        for (int bit = 0; bit < 8; bit++)
            rest |= (octets[0] >> (7 - bit) & 1u) << bit;
        rest_count = 8 - unused;
    }
}

// Reads on. Sets next_how where nothing more is read.
template <class Read> void report_range<Read>::fill() {
    held -= ready;
    if (held > 0)
        std::memmove(octets, octets + ready, held);
    ready = first = 0;
    const long long count = static_cast<long long>(read(octets + held, sizeof octets - held));
    if (count < 0) {
        next_how = outcome::failed;
    } else if (count == 0) {
        next_how = outcome::ended;
        if (of == form::packed)
            end_packed();
    } else {
        if (of == form::text)
            add_text(octets, static_cast<std::size_t>(count));
        else
            held += static_cast<std::size_t>(count);
        done += static_cast<std::uint64_t>(count);
        // Only the end shows which octet of packed cells is the last.
        const std::size_t back = of == form::packed ? 2 : 0;
        ready = held > back ? held - back : 0;
    }
}

// Takes cells up to a report; answers whether there is more to do without one.
template <class Read> bool report_range<Read>::step() {
    std::size_t taken = 0;
    if (first < 8 * ready) {
        taken = aes3_lock_take_octets(&state, octets, ready, first, &told);
        first += taken;
        if (told.kind == AES3_WHOLE)
            aes3_lock_block(&state, told.words);
    } else if (next_how == outcome::going) {
        fill();
        return true;
    } else if (rest_count > 0) {
        taken = aes3_lock_push(&state, rest, rest_count, &told);
        rest >>= taken;
        rest_count -= static_cast<std::uint32_t>(taken);
    } else {
        how = next_how;
        if (how == outcome::ended)
            aes3_lock_finish(&state, &told);
        return false;
    }
    if (taken == 0 && told.kind == AES3_NONE) {
        how = outcome::full;
        return false;
    }
    return told.kind == AES3_NONE;
}

template <class Read> bool report_range<Read>::advance() {
    told.kind = AES3_NONE;
    while (how == outcome::going && step()) {
    }
    return told.kind != AES3_NONE;
}

} // namespace aes3
