// What the programs of this folder that make PTU files share: the table of record types, random numbers,
// the header, and the writing of records.
#ifndef MADE_FILE_HPP
#define MADE_FILE_HPP

#include <cstdint>
#include <cstdio>
#include <cstdlib>
#include <cstring>
#include <string>
#include <vector>

enum class Layout { PicoT2, PicoT3, HydraT2, HydraT3 };

struct Type {
    const char *name;
    uint32_t code;
    Layout layout;
    uint64_t unit; // what one wrap adds to the time
};

static const Type types[] = {
    {"PicoHarpT3", 0x00010303, Layout::PicoT3, 65536},
    {"PicoHarpT2", 0x00010203, Layout::PicoT2, 210698240},
    {"HydraHarpT3", 0x00010304, Layout::HydraT3, 1024},
    {"HydraHarpT2", 0x00010204, Layout::HydraT2, 33552000},
    {"HydraHarp2T3", 0x01010304, Layout::HydraT3, 1024},
    {"HydraHarp2T2", 0x01010204, Layout::HydraT2, 33554432},
    {"TimeHarp260NT3", 0x00010305, Layout::HydraT3, 1024},
    {"TimeHarp260NT2", 0x00010205, Layout::HydraT2, 33554432},
    {"TimeHarp260PT3", 0x00010306, Layout::HydraT3, 1024},
    {"TimeHarp260PT2", 0x00010206, Layout::HydraT2, 33554432},
    {"MultiHarpT3", 0x00010307, Layout::HydraT3, 1024},
    {"MultiHarpT2", 0x00010207, Layout::HydraT2, 33554432},
};

// A linear congruential generator; its upper half is used.
struct Draws {
    uint64_t state = 1;

    uint32_t next() {
        state = state * 6364136223846793005u + 1442695040888963407u;
        return static_cast<uint32_t>(state >> 32);
    }

    uint32_t below(uint32_t limit) {
        return static_cast<uint32_t>((static_cast<uint64_t>(next()) * limit) >> 32);
    }
};

static void put(std::vector<unsigned char> &into, uint64_t value, int bytes) {
    for (int at = 0; at < bytes; at++)
        into.push_back(static_cast<unsigned char>(value >> (8 * at)));
}

static void put_tag(std::vector<unsigned char> &into, const char *name, uint32_t code, uint64_t value) {
    std::string padded(name);
    padded.resize(32, '\0');
    into.insert(into.end(), padded.begin(), padded.end());
    put(into, 0xFFFFFFFFu, 4); // the index -1
    put(into, code, 4);
    put(into, value, 8);
}

static std::vector<unsigned char> header(const Type &type) {
    static const char preamble[] = "PQTTTR\0\0" "1.0.00\0"; // 16 bytes with the last NUL
    std::vector<unsigned char> bytes(preamble, preamble + 16);
    put_tag(bytes, "TTResultFormat_TTTRRecType", 0x10000008u, type.code);
    put_tag(bytes, "Header_End", 0xFFFF0008u, 0);
    return bytes;
}

// Writes the header and so many records, each the next of `records`.
template <class Records> static bool write_records(std::FILE *file, const Type &type, Records &records, uint64_t count) {
    std::vector<unsigned char> bytes = header(type);
    for (uint64_t made = 0; made < count; made++) {
        put(bytes, records.next(), 4);
        if (bytes.size() >= 65536) {
            if (std::fwrite(bytes.data(), 1, bytes.size(), file) != bytes.size())
                return false;
            bytes.clear();
        }
    }
    return std::fwrite(bytes.data(), 1, bytes.size(), file) == bytes.size();
}

static const Type *type_of(const char *name) {
    for (const Type &one : types)
        if (std::strcmp(name, one.name) == 0)
            return &one;
    return nullptr;
}

// Writes a file under this name, and gives the status of the program.
template <class Records> static int write_file(const char *name, const Type &type, Records &records, uint64_t count) {
    std::FILE *file = std::fopen(name, "wb");
    if (file == nullptr) {
        std::fprintf(stderr, "cannot open %s\n", name);
        return 1;
    }
    const bool written = write_records(file, type, records, count);
    if (std::fclose(file) != 0 || !written) {
        std::fprintf(stderr, "cannot write %s\n", name);
        return 1;
    }
    return 0;
}

// Reads a number; false where the word is none.
static bool read_number(const char *word, uint64_t &number) {
    char *end = nullptr;
    number = std::strtoull(word, &end, 10);
    return end != word && *end == '\0';
}

#endif
