// The header from C++: what an empty std::vector hands over, answers in the patterns' own place, every difference of two
// answered listings, an arm turned in its own place, and the result types.
#include <cstdio>
#include <cstdlib>
#include <type_traits>
#include <vector>

#include "balehasp.h"

static_assert(std::is_same<decltype(balehasp_batch(1, nullptr, 0, nullptr, 0, 0, 0, nullptr, nullptr)), uint16_t>::value,
              "a refusal is a uint16_t");

static void expect(bool holds, const char *what)
{
    if (!holds) {
        std::fprintf(stderr, "vectors: %s\n", what);
        std::exit(1);
    }
}

typedef std::vector<uint8_t> Bytes;

static uint16_t difference(const Bytes &first, const Bytes &second, size_t from, size_t *place)
{
    return balehasp_difference(first.data(), first.size(), second.data(), second.size(), from, place);
}

// Every place at which two answered listings differ, found as the header says.
static std::vector<size_t> differences(const Bytes &first, const Bytes &second)
{
    std::vector<size_t> places;
    size_t answers = 0, place = 0;
    expect(difference(first, second, SIZE_MAX, &answers) == 0, "how many answers there are");
    for (size_t from = 0; place < answers; from = place + 1) {
        expect(difference(first, second, from, &place) == 0 && place >= from, "the next difference");
        if (place < answers)
            places.push_back(place);
    }
    return places;
}

static void answered_listings()
{
    const Bytes none, first{2, 0, 2, 0, 3, 0, 2, 0, 0x00, 0x40, 0x00, 0x80, 4, 0, 0x00, 0x50, 0x00, 0x80, 0, 0, 0x00, 0x80};
    Bytes second = first;
    size_t place = 7;
    expect(differences(first, first).empty() && differences(first, second).empty(), "a vector beside itself and its like");
    second[15] = 0x51;
    second[20] = 0x01;
    expect(differences(first, second) == std::vector<size_t>({0, 3}), "both differences of two vectors");
    expect(difference(none, second, 0, &place) == BALEHASP_REFUSED_CUT
               && difference(first, none, 0, &place) == BALEHASP_REFUSED_CUT
               && difference(none, none, 0, nullptr) == BALEHASP_REFUSED_CUT && place == 7, "an empty vector");
    second[12] = 5;
    expect(difference(first, second, 0, &place) == BALEHASP_REFUSED_COUNT && place == 7, "a count of answers that is wrong");
    second = first;
    second[8] = 0x01;
    expect(difference(first, second, 0, &place) == BALEHASP_REFUSED_DIFFERENT && place == 7, "vectors that ask other things");
}

static void arms()
{
    const uint16_t quarter = 0x3000;
    std::vector<uint16_t> arm{0x4000, 0, 0};
    balehasp_turn(quarter, 0, 0, arm.data(), arm.data());
    expect(arm == std::vector<uint16_t>({0, 0x4000, 0}), "a heading of a quarter turn, in place");
    balehasp_turn(0, 0, BALEHASP_NAR, arm.data(), arm.data());
    expect(arm == std::vector<uint16_t>(3, BALEHASP_NAR), "a roll that is NaR, in place");
    expect(balehasp_subtract(balehasp_add(0x4000, 0x4000), balehasp_multiply(0x4000, balehasp_negate(0xB000))) == 0, "2 - 1 * 2");
}

int main()
{
    answered_listings();
    arms();
    std::vector<uint16_t> none, patterns(1000, 0x4000);
    std::vector<uint8_t> no_bytes, room(BALEHASP_LONGEST_ANSWERED);
    size_t next = 7, nars = 7, written = 7;
    expect(balehasp_batch(BALEHASP_EXP2, none.data(), none.size(), none.data(), none.size(), 0, 9, &next, &nars) == 0
               && next == 0 && nars == 0, "a batch of an empty vector");
    expect(balehasp_batch(BALEHASP_EXP2, patterns.data(), patterns.size(), none.data(), none.size(), 0, 9, &next, &nars)
               == BALEHASP_REFUSED_OUTPUT, "an empty output");
    expect(balehasp_listing(no_bytes.data(), no_bytes.size(), room.data(), room.size(), &written) == BALEHASP_REFUSED_CUT
               && written == 0, "a listing of an empty vector");
    expect(balehasp_listing(no_bytes.data(), no_bytes.size(), no_bytes.data(), no_bytes.size(), nullptr) == BALEHASP_REFUSED_CUT,
           "empty vectors alone");
    expect(balehasp_batch(BALEHASP_EXP2, patterns.data(), patterns.size(), patterns.data(), patterns.size(), 0, 1000, &next, &nars)
                   == 0
               && next == 1000 && nars == 0 && patterns == std::vector<uint16_t>(1000, 0x5000), "a vector in its own place");
    std::puts("vectors: all passed");
    return 0;
}
