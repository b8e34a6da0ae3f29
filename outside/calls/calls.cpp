// What only C++ can say of the header.
#include <array>
#include <cstddef>
#include <cstdint>
#include <type_traits>
#include <vector>

#include "calls.h"
#include "harbour.h"
#include "tally.h"

using bytes = const std::uint8_t *;
using words = const std::uint64_t *;
using size = std::size_t;
using u64 = std::uint64_t;

static_assert(std::is_same_v<decltype(harbour_run), harbour_reply(u64, bytes, size, bytes, size, words, size,
    std::uint8_t *, size, u64 *, size, u64, u64)>);
static_assert(std::is_same_v<decltype(harbour_examine), harbour_reply(bytes, size, bytes, size, words, size)>);
static_assert(std::is_same_v<decltype(harbour_lawful), harbour_reply(bytes, size, bytes, size, words, size, bytes,
    size)>);
static_assert(std::is_same_v<decltype(harbour_broken), decltype(harbour_lawful)>);
static_assert(std::is_same_v<decltype(harbour_rows), harbour_part(bytes, size, bytes, size, words, size, u64, u64)>);
static_assert(std::is_same_v<decltype(harbour_read), harbour_read_reply(bytes, size, std::uint8_t *, size,
    std::uint8_t *, size, u64 *, size)>);
static_assert(std::is_same_v<decltype(harbour_write), harbour_written(bytes, size, bytes, size, words, size,
    std::uint8_t *, size)>);
static_assert(std::is_same_v<decltype(harbour_lawful_file), u64(bytes, size, bytes, size, std::uint8_t *, size,
    std::uint8_t *, size, u64 *, size)>);
static_assert(std::is_standard_layout_v<harbour_reply> && std::is_trivially_copyable_v<harbour_reply>);
static_assert(std::is_standard_layout_v<harbour_part> && std::is_trivially_copyable_v<harbour_part>);
static_assert(std::is_standard_layout_v<harbour_read_reply> && std::is_trivially_copyable_v<harbour_read_reply>);
static_assert(std::is_standard_layout_v<harbour_written> && std::is_trivially_copyable_v<harbour_written>);

using some_bytes = std::vector<std::uint8_t>;
using some_words = std::vector<u64>;

// Case C: two boats, two slots each, never the same one.
static const some_bytes sizes{2, 2}, pairs{0, 1};
static const some_words rows{2, 1};

static void run_with_containers() {
    some_bytes plan(sizes.size());
    some_words work(HARBOUR_WORK, 1);
    const std::array<u64, 5> trials{3, 3, 3, 2, 2};
    for (u64 method = HARBOUR_BT; method <= HARBOUR_FC_CBJ; method++) {
        const auto [answer, place, checks, made] = harbour_run(method, sizes.data(), sizes.size(), pairs.data(),
            pairs.size(), rows.data(), rows.size(), plan.data(), plan.size(), work.data(), work.size(),
            HARBOUR_AMPLE, HARBOUR_AMPLE);
        same("containers", "answer", answer, HARBOUR_SOLVED);
        same("containers", "place", place, 0);
        same("containers", "checks", checks, 2);
        same("containers", "trials", made, trials[method - 1]);
        holds("containers", "another plan", plan == some_bytes{0, 1});
        holds("containers", "working words left", work == some_words(HARBOUR_WORK));
    }
}

static some_bytes written_to_container() {
    some_bytes file(HARBOUR_FILE);
    const auto [answer, place, length] = harbour_write(sizes.data(), sizes.size(), pairs.data(), pairs.size(),
        rows.data(), rows.size(), file.data(), file.size());
    same("a file's container", "answer", answer, HARBOUR_FINE);
    same("a file's container", "place", place, 0);
    same("a file's container", "length", length, 29);
    file.resize(length);
    return file;
}

// Memory that suffices for every good file, cut down to what was read.
static void read_from_container(const some_bytes &file) {
    some_bytes read_sizes(HARBOUR_BOATS), read_pairs(2 * HARBOUR_PAIRS);
    some_words read_rows(HARBOUR_ROWS);
    const auto [answer, place, boats, pair_bytes, row_words] = harbour_read(file.data(), file.size(), read_sizes.data(),
        read_sizes.size(), read_pairs.data(), read_pairs.size(), read_rows.data(), read_rows.size());
    same("a file's container", "answer", answer, HARBOUR_FINE);
    same("a file's container", "place", place, 0);
    read_sizes.resize(boats);
    read_pairs.resize(pair_bytes);
    read_rows.resize(row_words);
    holds("a file's container", "other tables", read_sizes == sizes && read_pairs == pairs && read_rows == rows);
}

static void asked_of_container(const some_bytes &file) {
    const some_bytes lawful{0, 1}, unlawful{1, 1};
    some_bytes lent_sizes(2), lent_pairs(2);
    some_words lent_rows(2);
    const harbour_rooms lent{lent_sizes.data(), 2, lent_pairs.data(), 2, lent_rows.data(), 2};
    same("a file's container", "lawful", harbour_lawful_file_t(file.data(), file.size(), lawful.data(), 2, lent),
        HARBOUR_LAWFUL);
    same("a file's container", "unlawful", harbour_lawful_file_t(file.data(), file.size(), unlawful.data(), 2, lent),
        HARBOUR_UNLAWFUL);
}

void with_containers(void) {
    run_with_containers();
    const some_bytes file = written_to_container();
    read_from_container(file);
    asked_of_container(file);
}
