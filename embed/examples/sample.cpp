// The script sample.arb by calls of the machine: a load goes ahead of the store whose word it wants, is squashed, and is issued
// again. Prints what the script program prints of it.
#include <arb.hpp>

#include <array>
#include <iostream>

namespace {

constexpr std::array<uint32_t, 12> program{ARB_ADD, 1, 0, 5, ARB_STORE, 1, 0, 3, ARB_LOAD, 2, 0, 3};

arb_refusal commit(arb::machine &machine, unsigned &commits)
{
    arb_committed did{};
    if (arb_refusal why = machine.commit(did))
        return why;
    if (did.code == ARB_LOAD)
        std::cout << "f," << did.index << "," << did.distance << "\n";
    std::cout << did.index << "," << "?APLSBH"[did.code] << "," << did.target << "," << did.value << "\n";
    commits++;
    return ARB_DONE;
}

}

int main()
{
    std::array<uint32_t, 8> memory{};
    arb::machine machine(1, 2, 4, program.data(), program.size(), memory.data(), memory.size());
    unsigned commits = 0;
    // i issues, a digit executes that position, c commits
    for (char what : std::string("iii201cci0c")) {
        size_t position;
        arb_machine_outcome out{};
        arb_refusal why = what == 'i'   ? machine.issue(position)
                          : what == 'c' ? commit(machine, commits)
                                        : machine.execute(static_cast<size_t>(what - '0'), out);
        if (why)
            throw arb::refused(why);
    }
    for (size_t a = 0; a < memory.size(); a++)
        if (memory[a])
            std::cout << "m," << a << "," << memory[a] << "\n";
    const arb_machine &m = machine.state();
    std::cout << "end," << (m.table.live == 0 && m.next == m.count ? "done" : "open") << "," << commits << "\n";
}
