// What 'ptu trace', 'ptu pick' and 'ptu run' with folds print, by a plain C++ program to compare with:
//
//   plain trace PLAN FILE
//   plain pick PLAN GROUP FILE
//   plain run PLAN FILE
//
// It reads the files of types HydraHarp2T2 and HydraHarp2T3 that the programs of this folder make, whose header has
// 112 bytes, and plans whose groups have inputs alone. `run` prints the head of a report and its folds. It takes its
// input on trust: what ptu would refuse isn't looked at.
#include "made_file.hpp"

#include <charconv>
#include <deque>
#include <fstream>

[[noreturn]] static void give_up(const char *why) {
    std::fprintf(stderr, "plain: %s\n", why);
    std::exit(1);
}

// ## The plan

struct Group {
    uint64_t inputs = 0; // bit n for input n, of which there are at most 63 here
};

struct TraceSet {
    uint64_t group = 0, origin = 0, width = 0;
};

struct FoldSet {
    std::vector<uint64_t> groups;
    uint64_t window = 0;
};

struct Plan {
    std::vector<Group> groups;
    std::vector<TraceSet> traces;
    std::vector<FoldSet> folds;
};

static std::vector<uint64_t> numbers_in(const std::string &text) {
    std::vector<uint64_t> numbers;
    for (size_t at = 0; at < text.size();) {
        if (!std::isdigit(static_cast<unsigned char>(text[at]))) {
            at++;
            continue;
        }
        size_t used = 0;
        numbers.push_back(std::stoull(text.substr(at), &used));
        at += used;
    }
    return numbers;
}

static Plan read_plan(const char *name) {
    std::ifstream file(name);
    if (!file)
        give_up("cannot open the plan");
    Plan plan;
    std::string line, table;
    while (std::getline(file, line)) {
        line = line.substr(0, line.find('#'));
        if (line.rfind("[[", 0) == 0) {
            table = line.substr(2, line.find("]]") - 2);
            if (table == "group")
                plan.groups.emplace_back();
            else if (table == "trace")
                plan.traces.emplace_back();
            else if (table == "fold")
                plan.folds.emplace_back();
            continue;
        }
        const size_t equals = line.find('=');
        if (equals == std::string::npos)
            continue;
        const std::string key = line.substr(0, line.find_first_of(" ="));
        const std::vector<uint64_t> numbers = numbers_in(line.substr(equals));
        if (table == "group" && key == "inputs")
            for (uint64_t input : numbers)
                plan.groups.back().inputs |= uint64_t{1} << input;
        else if (table == "trace" && key == "group")
            plan.traces.back().group = numbers[0];
        else if (table == "trace" && key == "origin")
            plan.traces.back().origin = numbers[0];
        else if (table == "trace" && key == "width")
            plan.traces.back().width = numbers[0];
        else if (table == "fold" && key == "groups")
            plan.folds.back().groups = numbers;
        else if (table == "fold" && key == "window")
            plan.folds.back().window = numbers[0];
    }
    return plan;
}

// ## Output

class Text {
    std::vector<char> bytes = std::vector<char>(1 << 16);
    size_t length = 0;

    void make_room(size_t more) {
        if (length + more > bytes.size())
            flush();
    }

  public:
    ~Text() { flush(); }

    void flush() {
        if (std::fwrite(bytes.data(), 1, length, stdout) != length || std::fflush(stdout) != 0)
            give_up("cannot write");
        length = 0;
    }

    void put(const char *text) {
        const size_t count = std::strlen(text);
        make_room(count);
        std::memcpy(bytes.data() + length, text, count);
        length += count;
    }

    void put(uint64_t number, char behind) {
        make_room(21);
        char *end = std::to_chars(bytes.data() + length, bytes.data() + length + 20, number).ptr;
        *end++ = behind;
        length = static_cast<size_t>(end - bytes.data());
    }

    void put_word(uint32_t word) {
        make_room(4);
        for (int at = 0; at < 4; at++)
            bytes[length++] = static_cast<char>(word >> (8 * at));
    }

    void put_line(const char *word, uint64_t number) {
        put(word);
        put(number, '\n');
    }
};

// ## The file

struct Photon {
    uint32_t input;
    uint32_t dtime;
    uint64_t time;
};

struct Counts {
    uint64_t records = 0, photons = 0, markers = 0, wraps = 0, reserved = 0, late = 0, first = 0, last = 0;
    bool any = false;

    void keep(uint64_t time) {
        if (!any)
            first = time;
        any = true;
        last = time;
    }
};

// Gives each photon that isn't late to `take`.
template <class Take> static Counts each_photon(std::FILE *file, bool t3, Take take) {
    const uint64_t unit = t3 ? 1024 : 33554432;
    Counts counts;
    uint64_t base = 0, greatest = 0;
    std::vector<uint32_t> words(1 << 14);
    while (const size_t count = std::fread(words.data(), 4, words.size(), file)) {
        for (size_t at = 0; at < count; at++) {
            const uint32_t word = words[at];
            const bool special = word >> 31;
            const uint32_t channel = (word >> 25) & 63;
            const uint64_t time = base + (t3 ? word & 1023 : word & 33554431);
            counts.records++;
            if (!special || (channel == 0 && !t3)) {
                counts.photons++;
                if (time < greatest) {
                    counts.late++;
                    continue;
                }
                greatest = time;
                counts.keep(time);
                take(Photon{t3 ? channel : special ? 0 : channel + 1, t3 ? (word >> 10) & 32767 : 0, time});
            } else if (channel == 63) {
                counts.wraps++;
                const uint64_t factor = t3 ? word & 1023 : word & 33554431;
                base += unit * (factor == 0 ? 1 : factor);
            } else if (channel == 0 || channel > 15) {
                counts.reserved++;
            } else {
                counts.markers++;
                if (t3 && time < greatest) {
                    counts.late++;
                    continue;
                }
                if (t3)
                    greatest = time;
                counts.keep(time);
            }
        }
    }
    return counts;
}

// ## trace

static void trace(const Plan &plan, std::FILE *file, bool t3, Text &out) {
    const TraceSet &set = plan.traces.at(0);
    const uint64_t inputs = plan.groups.at(set.group - 1).inputs;
    out.put("trace 1 origin ");
    out.put(set.origin, ' ');
    out.put_line("width ", set.width);
    uint64_t bin = 0, count = 0, before = 0, above = 0, next = 0; // next: the first bin behind those that are closed
    uint64_t begin = set.origin;
    std::vector<uint64_t> frequency(1024);
    const auto shut = [&] {
        out.put(bin, ' ');
        out.put(count, '\n');
        frequency[0] += bin - next;
        if (count < 1024)
            frequency[count]++;
        else
            above++;
        next = bin + 1;
    };
    each_photon(file, t3, [&](const Photon &photon) {
        if (!(inputs >> photon.input & 1))
            return;
        if (photon.time < set.origin) {
            before++;
            return;
        }
        if (photon.time - begin >= set.width) {
            if (count > 0)
                shut();
            bin = (photon.time - set.origin) / set.width;
            begin = set.origin + bin * set.width;
            count = 0;
        }
        count++;
    });
    if (count > 0)
        shut();
    out.put_line("before ", before);
    for (uint64_t at = 0; at < 1024; at++)
        if (frequency[at] > 0) {
            out.put("frequency ");
            out.put(at, ' ');
            out.put(frequency[at], '\n');
        }
    out.put_line("above ", above);
}

// ## pick

static void pick(const Plan &plan, uint64_t group, std::FILE *file, bool t3, Text &out) {
    const uint64_t inputs = plan.groups.at(group - 1).inputs;
    for (unsigned char byte : header(*type_of(t3 ? "HydraHarp2T3" : "HydraHarp2T2")))
        std::fputc(byte, stdout);
    const uint64_t unit = t3 ? 1024 : 33554432;
    uint64_t units = 0;
    each_photon(file, t3, [&](const Photon &photon) {
        if (!(inputs >> photon.input & 1))
            return;
        uint64_t more = photon.time / unit - units;
        units += more;
        for (; more > unit - 1; more -= unit - 1)
            out.put_word(0xFE000000u + static_cast<uint32_t>(unit - 1));
        if (more > 0)
            out.put_word(0xFE000000u + static_cast<uint32_t>(more));
        const uint32_t low = static_cast<uint32_t>(photon.time % unit);
        if (t3)
            out.put_word(photon.input << 25 | photon.dtime << 10 | low);
        else
            out.put_word(photon.input == 0 ? 0x80000000u | low : (photon.input - 1) << 25 | low);
    });
}

// ## folds

class Fold {
    struct Tick {
        uint64_t time, photons;
    };

    const FoldSet &set;
    std::vector<uint32_t> patterns; // by input
    std::vector<uint64_t> latest;   // by group, one more than the time
    std::vector<uint64_t> cells;
    std::deque<Tick> ticks;

    void count(const Tick &tick) {
        uint32_t pattern = 0;
        for (size_t at = 0; at < latest.size(); at++)
            pattern |= static_cast<uint32_t>(latest[at] > tick.time) << at;
        cells[pattern] += tick.photons;
    }

  public:
    Fold(const FoldSet &set, const Plan &plan) : set(set), patterns(64), latest(set.groups.size()), cells(1u << set.groups.size()) {
        for (uint32_t input = 0; input < 64; input++)
            for (size_t at = 0; at < set.groups.size(); at++)
                patterns[input] |= static_cast<uint32_t>(plan.groups.at(set.groups[at] - 1).inputs >> input & 1) << at;
    }

    void take(const Photon &photon) {
        const uint32_t pattern = patterns[photon.input];
        if (pattern == 0)
            return;
        while (!ticks.empty() && ticks.front().time + set.window < photon.time) {
            count(ticks.front());
            ticks.pop_front();
        }
        for (size_t at = 0; at < latest.size(); at++)
            if (pattern >> at & 1)
                latest[at] = photon.time + 1;
        if (!ticks.empty() && ticks.back().time == photon.time)
            ticks.back().photons++;
        else
            ticks.push_back({photon.time, 1});
    }

    void print(uint64_t number, Text &out) {
        for (; !ticks.empty(); ticks.pop_front())
            count(ticks.front());
        out.put("fold ");
        out.put(number, ' ');
        out.put("window ");
        out.put(set.window, ' ');
        out.put_line("sets ", cells.size());
        for (uint64_t at = 0; at < cells.size(); at++)
            if (cells[at] > 0) {
                out.put(at, ' ');
                out.put(cells[at], '\n');
            }
    }
};

static void run(const Plan &plan, std::FILE *file, bool t3, Text &out) {
    std::vector<Fold> folds;
    for (const FoldSet &set : plan.folds)
        folds.emplace_back(set, plan);
    const Counts counts = each_photon(file, t3, [&](const Photon &photon) {
        for (Fold &fold : folds)
            fold.take(photon);
    });
    out.put(t3 ? "type HydraHarp2T3\n" : "type HydraHarp2T2\n");
    out.put("announced -\nglobal -\nresolution -\n");
    out.put_line("records ", counts.records);
    out.put_line("photons ", counts.photons);
    out.put_line("markers ", counts.markers);
    out.put_line("wraps ", counts.wraps);
    out.put_line("reserved ", counts.reserved);
    out.put_line("late ", counts.late);
    if (counts.any) {
        out.put_line("first ", counts.first);
        out.put_line("last ", counts.last);
    } else
        out.put("first -\nlast -\n");
    for (size_t at = 0; at < folds.size(); at++)
        folds[at].print(at + 1, out);
}

int main(int argc, char **argv) {
    const std::string command = argc > 1 ? argv[1] : "";
    const bool picks = command == "pick";
    if (!(picks ? argc == 5 : (command == "trace" || command == "run") && argc == 4))
        give_up("usage: plain trace PLAN FILE, plain pick PLAN GROUP FILE, or plain run PLAN FILE");
    const Plan plan = read_plan(argv[2]);
    std::FILE *file = std::fopen(argv[argc - 1], "rb");
    unsigned char head[112];
    if (file == nullptr || std::fread(head, 1, sizeof head, file) != sizeof head)
        give_up("cannot read the file");
    uint32_t code = 0;
    std::memcpy(&code, head + 56, 4);
    if (code != type_of("HydraHarp2T3")->code && code != type_of("HydraHarp2T2")->code)
        give_up("not a file that this program reads");
    const bool t3 = code == type_of("HydraHarp2T3")->code;
    Text out;
    uint64_t group = 0;
    if (picks && !read_number(argv[3], group))
        give_up("not the number of a group");
    if (picks)
        pick(plan, group, file, t3, out);
    else if (command == "trace")
        trace(plan, file, t3, out);
    else
        run(plan, file, t3, out);
    return 0;
}
