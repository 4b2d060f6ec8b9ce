// Table 1 of Franklin and Sohi's paper: two loads go ahead of an older store, which squashes them when it executes. Issued again
// they take the words stored; the late execution of a load that is dead meets the number of who holds its stage now.
#include <arb.hpp>

#include <cstdlib>
#include <iostream>
#include <utility>
#include <vector>

namespace {

struct run {
    std::vector<uint32_t> memory;
    arb::buffer buffer;

    explicit run(std::vector<uint32_t> words) : memory(std::move(words)), buffer(1, 4, 4, memory.data(), memory.size()) {}

    // Issue and commit are not refused here.
    arb_ticket issue()
    {
        arb_ticket ticket;
        if (buffer.issue(ticket))
            std::abort();
        return ticket;
    }

    void commit()
    {
        arb_ticket ticket;
        if (buffer.commit(ticket))
            std::abort();
    }

    uint32_t load(arb_ticket at, uint32_t address)
    {
        arb_outcome out{};
        std::cout << "load " << address << ": ";
        arb_refusal why = buffer.load(at, address, out);
        tell(why, out);
        auto holder = buffer.holder(at.stage);
        if (why == ARB_NOT_LIVE && holder)
            std::cout << "issue number " << at.number << " is gone: stage " << at.stage << " is held by " << holder->number
                      << "\n";
        return out.value;
    }

    void store(arb_ticket at, uint32_t address, uint32_t value)
    {
        arb_outcome out{};
        std::cout << "store " << value << " at " << address << ": ";
        arb_refusal why = buffer.store(at, address, value, out);
        tell(why, out);
    }

    static void tell(arb_refusal why, const arb_outcome &out)
    {
        if (why) {
            std::cout << "refused with " << why << ", " << arb_reason(why) << "\n";
            return;
        }
        std::cout << "value " << out.value << ", distance " << out.distance;
        if (out.squashed)
            std::cout << ", squashed from stage " << out.from.stage << ", issue number " << out.from.number << " on";
        std::cout << "\n";
    }
};

}

int main()
{
    std::vector<uint32_t> memory(200);
    memory[100] = 140;
    run r(memory);
    arb_ticket first = r.issue(), second = r.issue(), third = r.issue(), fourth = r.issue();
    uint32_t address = r.load(third, 100);
    r.store(second, 120, 50);
    r.load(fourth, address);
    r.store(first, 100, 120);
    r.commit();
    r.commit();
    arb_ticket again = r.issue(), next = r.issue();
    r.load(third, 100);
    address = r.load(again, 100);
    r.load(next, address);
}
