// The header as a program in C++ uses it: vectors, strings, threads, and names of answers in a switch.
#include "snowdell.h"

#include "lent.h"

#include <array>
#include <string>
#include <thread>
#include <type_traits>
#include <vector>

static_assert(std::is_same<decltype(&snowdell_version), std::size_t (*)()>::value, "the version takes nothing");
static_assert(std::is_same<decltype(&snowdell_check),
                           std::size_t (*)(const std::uint8_t *, std::size_t, std::size_t *, std::size_t)>::value,
              "check only reads the file");

// Sizes are constants, so that they can be lengths of arrays.
using Numbers = std::array<std::size_t, SNOWDELL_DECIDE_NUMBERS>;

static const std::uint8_t *bytes(const std::string &text) { return reinterpret_cast<const std::uint8_t *>(text.data()); }

static std::string decide(const std::string &policy, const std::string &s, const std::string &o, const std::string &a) {
    std::vector<std::uint8_t> memory(SNOWDELL_MEMORY);
    Numbers numbers{};
    const std::size_t returned = snowdell_decide(bytes(policy), policy.size(), bytes(s), s.size(), bytes(o), o.size(), bytes(a),
                                                 a.size(), memory.data(), memory.size(), numbers.data(), numbers.size());
    if (returned != SNOWDELL_ACCEPTED)
        return "refused " + std::to_string(returned) + " at line " + std::to_string(numbers[SNOWDELL_LINE]);
    switch (numbers[SNOWDELL_DECIDE_ANSWER]) {
    case SNOWDELL_DENY:
        return "deny";
    case SNOWDELL_UNDECIDED:
        return "undecided";
    case SNOWDELL_PERMIT:
        return "permit";
    default:
        return "no answer";
    }
}

// The names of those who may, by the bytes of the result.
static std::vector<std::string> permitted(const std::string &policy, const std::vector<std::string> &subjects) {
    std::vector<std::uint8_t> result(SNOWDELL_RESULT), memory(SNOWDELL_MEMORY);
    std::array<std::size_t, SNOWDELL_CHECK_NUMBERS> counts{};
    std::array<std::size_t, SNOWDELL_COMPOSE_NUMBERS> numbers{};
    std::vector<std::string> names;
    if (snowdell_check(bytes(policy), policy.size(), counts.data(), counts.size()) != SNOWDELL_ACCEPTED ||
        snowdell_compose(bytes(policy), policy.size(), result.data(), result.size(), memory.data(), memory.size(), numbers.data(),
                         numbers.size()) != SNOWDELL_ACCEPTED)
        return names;
    for (std::size_t s = 0; s < counts[SNOWDELL_CHECK_SUBJECTS]; s++)
        if (result[snowdell_access(s, 0, 0, counts[SNOWDELL_CHECK_OBJECTS], counts[SNOWDELL_CHECK_ACTIONS])] == SNOWDELL_PERMIT)
            names.push_back(subjects[s]);
    return names;
}

int main() {
    const std::string policy = "S,staff,-\nS,ann,staff\nS,bob,staff\nO,week,-\nO,mon,week\nA,read,-\nA,write,-\nT,ward,here\n"
                               "T,late,away\nG,ward,ann,week,read\nG,ward,bob,mon,read\nE,0,ward+late^[a=write]\n";
    EXPECT("version", snowdell_version() == SNOWDELL_VERSION_NUMBER);
    EXPECT("decide", decide(policy, "ann", "week", "read") == "permit");
    EXPECT("decide", decide(policy, "bob", "week", "read") == "deny");
    EXPECT("decide", decide(policy, "bob", "week", "write") == "undecided");
    EXPECT("decide", decide(policy, "eve", "week", "read") == "refused 15 at line 0");
    EXPECT("decide", decide(policy + "\n", "ann", "week", "read") == "refused 3 at line 13");
    EXPECT("compose", permitted(policy, {"staff", "ann", "bob"}) == std::vector<std::string>{"ann"});

    // One policy, read by two threads; each has memory of its own.
    std::string said[2];
    std::thread ann([&] { said[0] = decide(policy, "ann", "week", "read"); });
    std::thread bob([&] { said[1] = decide(policy, "bob", "mon", "write"); });
    ann.join();
    bob.join();
    EXPECT("threads", said[0] == "permit" && said[1] == "undecided");
    return counted();
}
