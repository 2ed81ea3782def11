// Steps a thermostat from C++ 17: c++ -std=c++17 thermostat.cpp liblus.a -o thermostat
#include "lus.h"
#include <iostream>
#include <stdexcept>
#include <string>
#include <vector>

static const std::string text = R"(
node thermostat(temperature: int; low: int; high: int) returns (heat: bool; minutes: int);
let
  heat = if temperature < low then true else if temperature > high then false else (false -> pre heat);
  minutes = if heat then (0 -> pre minutes) + 1 else 0;
tel
)";

static void must(lus_status status) {
    if (status != LUS_OK) throw std::runtime_error("status " + std::to_string(status));
}

// A handle that is let go with its owner.
template <typename Handle> struct Owner {
    Handle handle = LUS_NONE;
    Owner() = default;
    Owner(const Owner &) = delete;
    ~Owner() { lus_free(&handle); }
};

// A text of the library's, for which a call says how long it is.
template <typename Call> static std::string text_of(Call call) {
    std::string text(64, ' ');
    uint64_t bytes;
    lus_status status;
    while ((status = call(text.data(), text.size(), &bytes)) == LUS_SHORT) text.resize(bytes);
    must(status);
    text.resize(bytes);
    return text;
}

// The line of the last entry.
static std::string line_of(lus_live &live, const std::string &caller) {
    return text_of([&](char *text, size_t room, uint64_t *bytes) {
        return lus_live_line(&live, caller.data(), caller.size(), text, room, bytes);
    });
}

// The program of a text, or why it is refused.
static void compile(const std::string &name, const std::string &text, lus_program &program) {
    lus_status status = lus_compile(text.data(), text.size(), &program, nullptr, nullptr, 0);
    if (status == LUS_REFUSED)
        throw std::invalid_argument(text_of([&](char *explanation, size_t room, uint64_t *bytes) {
            return lus_explain(text.data(), text.size(), name.data(), name.size(), explanation, room, bytes);
        }));
    must(status);
}

int main() {
    Owner<lus_program> program;
    Owner<lus_seat> seat;
    Owner<lus_journal> journal;
    Owner<lus_live> live;
    uint32_t node;
    try {
        compile("wrong.lus", "node n(x: int) returns (y: int); let y = z; tel", program.handle);
    } catch (const std::invalid_argument &refusal) {
        std::cout << refusal.what();
    }
    compile("thermostat.lus", text, program.handle);
    must(lus_node(&program.handle, "thermostat", 10, &node));
    must(lus_open(&program.handle, node, &seat.handle, 1));
    for (int64_t temperature : {18, 20, 23}) {
        std::vector<lus_value> inputs{{LUS_INT, 0, temperature}, {LUS_INT, 0, 19}, {LUS_INT, 0, 22}}, outputs(2);
        lus_answer answer;
        must(lus_try_step(&seat.handle, inputs.data(), inputs.size(), &answer, outputs.data(), outputs.size()));
        std::cout << temperature << ": heat " << outputs[0].number << ", minutes " << outputs[1].number << "\n";
    }
    uint64_t entries;
    must(lus_close(&seat.handle, 1, &journal.handle));
    must(lus_entries(&journal.handle, &entries));
    std::cout << entries << " entries\n";

    // an instance that keeps no history: the host has each line, and writes it where it likes
    must(lus_live_open(&program.handle, node, &live.handle));
    for (int64_t temperature : {18, 23}) {
        std::vector<lus_value> inputs{{LUS_INT, 0, temperature}, {LUS_INT, 0, 19}, {LUS_INT, 0, 22}}, outputs(2);
        lus_answer answer;
        must(lus_live_step(&live.handle, inputs.data(), inputs.size(), &answer, outputs.data(), outputs.size()));
        std::cout << line_of(live.handle, "panel");
    }
}
