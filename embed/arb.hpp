// arb.hpp: the buffer and the window machine as C++17 values. A copy is a checkpoint, but of the memory, which is borrowed and
// must outlive them. What arb.h says of callers and threads holds here too.
//
// An opening that is refused throws. Every other call answers its refusal: a stall or a full window is no error.
#pragma once

#include "arb_machine.h"

#include <optional>
#include <stdexcept>
#include <string>

namespace arb {

struct refused : std::runtime_error {
    arb_refusal number;
    explicit refused(arb_refusal why)
        : std::runtime_error("refusal " + std::to_string(why) + ": " + arb_reason(why)), number(why)
    {
    }
};

class buffer {
    arb_table t{};
    uint32_t *memory_;
    size_t words_;

public:
    buffer(size_t banks, size_t rows, size_t stages, uint32_t *memory, size_t words) : memory_(memory), words_(words)
    {
        if (arb_refusal why = arb_open(&t, banks, rows, stages, memory, words))
            throw refused(why);
    }
    [[nodiscard]] arb_refusal issue(arb_ticket &ticket) { return arb_issue(&t, &ticket); }
    [[nodiscard]] arb_refusal load(arb_ticket at, uint32_t address, arb_outcome &out)
    {
        return arb_load(&t, at, address, memory_, words_, &out);
    }
    [[nodiscard]] arb_refusal store(arb_ticket at, uint32_t address, uint32_t value, arb_outcome &out)
    {
        return arb_store(&t, at, address, value, memory_, words_, &out);
    }
    [[nodiscard]] arb_refusal store_byte(arb_ticket at, uint32_t byte, uint32_t value, arb_outcome &out)
    {
        return arb_store_byte(&t, at, byte, value, memory_, words_, &out);
    }
    [[nodiscard]] arb_refusal store_half(arb_ticket at, uint32_t byte, uint32_t value, arb_outcome &out)
    {
        return arb_store_half(&t, at, byte, value, memory_, words_, &out);
    }
    [[nodiscard]] arb_refusal other(arb_ticket at, arb_outcome &out) { return arb_other(&t, at, memory_, words_, &out); }
    [[nodiscard]] arb_refusal squash(arb_ticket at) { return arb_squash(&t, at); }
    [[nodiscard]] arb_refusal commit(arb_ticket &ticket) { return arb_commit(&t, memory_, words_, &ticket); }
    std::optional<arb_ticket> holder(size_t stage) const
    {
        arb_ticket ticket;
        return arb_holder(&t, stage, &ticket) ? std::optional<arb_ticket>(ticket) : std::nullopt;
    }
    const arb_table &table() const { return t; }
};

class machine {
    arb_machine m{};
    const uint32_t *program_;
    size_t numbers_;
    uint32_t *memory_;
    size_t words_;

public:
    machine(size_t banks, size_t rows, size_t stages, const uint32_t *program, size_t numbers, uint32_t *memory, size_t words)
        : program_(program), numbers_(numbers), memory_(memory), words_(words)
    {
        if (arb_refusal why = arb_machine_open(&m, banks, rows, stages, program, numbers, memory, words))
            throw refused(why);
    }
    [[nodiscard]] arb_refusal issue(size_t &position) { return arb_machine_issue(&m, program_, numbers_, &position); }
    [[nodiscard]] arb_refusal execute(size_t position, arb_machine_outcome &out)
    {
        return arb_machine_execute(&m, program_, numbers_, position, memory_, words_, &out);
    }
    [[nodiscard]] arb_refusal squash(size_t position) { return arb_machine_squash(&m, program_, numbers_, position); }
    [[nodiscard]] arb_refusal commit(arb_committed &out)
    {
        return arb_machine_commit(&m, program_, numbers_, memory_, words_, &out);
    }
    [[nodiscard]] arb_refusal finish(uint32_t limit, uint32_t *list, size_t places, size_t &commits)
    {
        return arb_machine_finish(&m, program_, numbers_, limit, memory_, words_, list, places, &commits);
    }
    const arb_machine &state() const { return m; }
};

}
