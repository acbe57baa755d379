// Writes a PTU file that is shaped as a measurement may be: make_shaped SHAPE RECORDS FILE
//
// The SHAPE is one of
//
//   bursts    HydraHarp2T2: photons of the inputs 1 and 2 in bursts of 10 to 60, in a burst 0 to 200 ticks
//             apart, and from burst to burst 20,000 to 60,000 ticks
//   dense     HydraHarp2T2: photons of the inputs 1 and 2, 0 to 2 ticks apart
//   scan      HydraHarp2T3: frames of 512 lines, each of 512 columns of 20 sync periods and 2,560 sync periods
//             for the way back. Marker bit 1 begins a line, bit 2 a frame and bit 3 ends a line. The photons
//             of the inputs 0 to 3 are 0 to 8 sync periods apart
//   mixed_t2  HydraHarp2T2: photons of the inputs 0 to 4, markers and reserved records, 0 to 5 ticks apart
//             but for some long gaps, and some of them late
//   mixed_t3  HydraHarp2T3: the same by sync periods
//
// Wraps come where the time runs over the range of its field, and count as records. The header is that of
// make.cpp. The same words give the same bytes each time.
#include "made_file.hpp"

#include <memory>

// A record that is no wrap: its word but for the time field, its time, and how much it is late at most.
struct Event {
    uint32_t word;
    uint64_t time;
    uint64_t late;
};

static uint32_t t2_photon(uint32_t input) { return input == 0 ? 0x80000000u : (input - 1) << 25; }

static uint32_t t3_photon(uint32_t input, uint32_t dtime) { return input << 25 | dtime << 10; }

static uint32_t marker_of(uint32_t bits) { return 0x80000000u | bits << 25; }

struct Shape {
    Draws draws;

    virtual ~Shape() = default;
    virtual Event next() = 0;
};

struct Bursts : Shape {
    uint64_t time = 0;
    uint32_t left = 0; // of this burst

    Event next() override {
        if (left == 0) {
            left = 10 + draws.below(51);
            time += 20000 + draws.below(40001);
        }
        left--;
        time += draws.below(201);
        return {t2_photon(1 + draws.below(2)), time, 0};
    }
};

struct Dense : Shape {
    uint64_t time = 0;

    Event next() override {
        time += draws.below(3);
        return {t2_photon(1 + draws.below(2)), time, 0};
    }
};

struct Scan : Shape {
    static const uint64_t LINE = 512 * 20;
    static const uint64_t LINE_AND_BACK = LINE + 2560;
    uint64_t line = 0;       // the number of the line, from 0
    bool on_the_way = false; // its marker came
    uint64_t photon = 0;     // the time of the next photon

    Event next() override {
        const uint64_t begin = line * LINE_AND_BACK;
        const uint64_t turn = on_the_way ? begin + LINE : begin;
        if (photon < turn) {
            const uint64_t time = photon;
            photon += draws.below(9);
            return {t3_photon(draws.below(4), draws.below(4096)), time, 0};
        }
        if (on_the_way)
            line++;
        on_the_way = !on_the_way;
        if (!on_the_way)
            return {marker_of(4), turn, 0};
        return {marker_of(line % 512 == 0 ? 3 : 1), turn, 0};
    }
};

struct Mixed : Shape {
    bool is_t2;
    uint64_t time = 0;

    explicit Mixed(bool is_t2) : is_t2(is_t2) {}

    uint32_t word() {
        const uint32_t draw = draws.below(100);
        if (draw < 3)
            return marker_of(16 + draws.below(47)); // which is reserved
        if (draw < 18)
            return marker_of(1 + draws.below(15));
        return is_t2 ? t2_photon(draws.below(5)) : t3_photon(draws.below(5), draws.below(300));
    }

    Event next() override {
        time += draws.below(150) == 0 ? draws.below(is_t2 ? 60000000 : 5000) : draws.below(6);
        return {word(), time, draws.below(20) == 0 ? 1 + draws.below(8) : 0};
    }
};

// The records of a shape with the wraps between them.
struct Records {
    Shape &shape;
    uint64_t unit;
    Event event;
    uint64_t base = 0;

    Records(Shape &shape, uint64_t unit) : shape(shape), unit(unit), event(shape.next()) {}

    uint32_t next() {
        const uint64_t since = event.time - base;
        if (since >= unit)
            return wrap(since / unit);
        const uint32_t word = event.word | static_cast<uint32_t>(since < event.late ? 0 : since - event.late);
        event = shape.next();
        return word;
    }

    // As many units as fit in the time field.
    uint32_t wrap(uint64_t units) {
        const uint32_t amount = static_cast<uint32_t>(units < unit ? units : unit - 1);
        base += amount * unit;
        return 0xFE000000u | amount;
    }
};

static std::unique_ptr<Shape> shape_of(const std::string &name) {
    if (name == "bursts")
        return std::make_unique<Bursts>();
    if (name == "dense")
        return std::make_unique<Dense>();
    if (name == "scan")
        return std::make_unique<Scan>();
    if (name == "mixed_t2" || name == "mixed_t3")
        return std::make_unique<Mixed>(name == "mixed_t2");
    return nullptr;
}

int main(int argc, char **argv) {
    const std::string name = argc == 4 ? argv[1] : "";
    const std::unique_ptr<Shape> shape = shape_of(name);
    uint64_t count = 0;
    if (shape == nullptr || !read_number(argv[2], count)) {
        std::fprintf(stderr, "usage: make_shaped SHAPE RECORDS FILE\n");
        return 1;
    }
    const Type &type = *type_of(name == "scan" || name == "mixed_t3" ? "HydraHarp2T3" : "HydraHarp2T2");
    Records records(*shape, type.unit);
    return write_file(argv[3], type, records, count);
}
