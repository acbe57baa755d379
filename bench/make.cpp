// Writes a PTU file of a given record type with a given number of records: make TYPE RECORDS FILE
//
// The header has 112 bytes: the preamble, the tag of the record type, and Header_End. Of the records
// about 87 % are photons, 10 % wraps, 2 % markers and 1 % reserved. Times never fall, and a wrap comes
// where the time runs over the range of its field. The same words give the same bytes each time.
#include "made_file.hpp"

static uint32_t photon(Layout layout, uint32_t time, Draws &draws) {
    switch (layout) {
    case Layout::PicoT2:
        return draws.below(5) << 28 | time;
    case Layout::PicoT3:
        return draws.below(5) << 28 | draws.below(4096) << 16 | time;
    case Layout::HydraT2: {
        const uint32_t input = draws.below(5); // 0 is a sync event
        return input == 0 ? 0x80000000u | time : (input - 1) << 25 | time;
    }
    case Layout::HydraT3:
        return draws.below(4) << 25 | draws.below(32768) << 10 | time;
    }
    return 0;
}

static uint32_t marker(Layout layout, uint32_t time, Draws &draws) {
    const uint32_t bits = 1 + draws.below(15);
    switch (layout) {
    case Layout::PicoT2:
        return 0xF0000000u | (time & ~15u) | bits;
    case Layout::PicoT3:
        return 0xF0000000u | bits << 16 | time;
    case Layout::HydraT2:
    case Layout::HydraT3:
        return 0x80000000u | bits << 25 | time;
    }
    return 0;
}

static uint32_t reserved(Layout layout, uint32_t time, Draws &draws) {
    switch (layout) {
    case Layout::PicoT2:
    case Layout::PicoT3:
        return (5 + draws.below(10)) << 28 | time;
    case Layout::HydraT2:
    case Layout::HydraT3:
        return 0x80000000u | (16 + draws.below(47)) << 25 | time;
    }
    return 0;
}

static uint32_t wrap(Layout layout) {
    switch (layout) {
    case Layout::PicoT2:
    case Layout::PicoT3:
        return 0xF0000000u;
    case Layout::HydraT2:
    case Layout::HydraT3:
        return 0xFE000001u;
    }
    return 0;
}

// The records of one file, one after the other.
struct Records {
    const Type &type;
    Draws draws;
    uint64_t time = 0; // since the last wrap

    explicit Records(const Type &type) : type(type) {}

    uint32_t next() {
        if (time >= type.unit) {
            time -= type.unit;
            return wrap(type.layout);
        }
        const uint32_t now = static_cast<uint32_t>(time);
        // One wrap for nine other records.
        time += draws.below(static_cast<uint32_t>(type.unit / 9 * 2 + 1));
        const uint32_t draw = draws.below(90);
        if (draw < 87)
            return photon(type.layout, now, draws);
        if (draw < 89)
            return marker(type.layout, now, draws);
        return reserved(type.layout, now, draws);
    }
};

int main(int argc, char **argv) {
    const Type *type = argc == 4 ? type_of(argv[1]) : nullptr;
    uint64_t count = 0;
    if (type == nullptr || !read_number(argv[2], count)) {
        std::fprintf(stderr, "usage: make TYPE RECORDS FILE\n");
        return 1;
    }
    Records records(*type);
    return write_file(argv[3], *type, records, count);
}
