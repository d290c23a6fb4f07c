// A host of Tullweth in C++11: calls each entry as a caller does whose files, runs and areas are
// vectors, of which an empty one may have a null pointer for its data. Its only argument is the rule
// file to read. It prints what each call returned and what came of it.
#include "tullweth.h"
#include "tullweth_text.h"
// Once more: the headers may be included twice.
#include "tullweth.h"
#include "tullweth_text.h"

#include <fstream>
#include <iostream>
#include <iterator>
#include <string>
#include <vector>

namespace {

// The lengths that 02 (M-100) changes.
static_assert(TULLWETH_FOUND_NUMBERS == 8192 && TULLWETH_ANSWER_NUMBERS == 8, "lengths of 02");

struct Areas {
    std::vector<uint64_t> found;
    std::vector<uint16_t> links;
    std::vector<uint8_t> verdicts, satisfying, violating;
    std::vector<uint64_t> answer, state;
};

Areas long_enough()
{
    Areas areas;
    areas.found.resize(TULLWETH_FOUND_NUMBERS);
    areas.links.resize(TULLWETH_LINK_NUMBERS);
    areas.verdicts.resize(TULLWETH_VERDICT_BYTES);
    areas.satisfying.resize(TULLWETH_SEQUENCE_BYTES);
    areas.violating.resize(TULLWETH_SEQUENCE_BYTES);
    areas.answer.resize(TULLWETH_ANSWER_NUMBERS);
    areas.state.resize(TULLWETH_STATE_NUMBERS);
    return areas;
}

// What the three entries return, each for rule 1 where it takes a rule.
void call_all(const char *what, const std::vector<uint8_t> &file, const std::vector<uint8_t> &run,
              Areas &areas)
{
    const uint32_t pruned = tullweth_prune(
        file.data(), file.size(), areas.found.data(), areas.found.size(), areas.links.data(),
        areas.links.size(), areas.verdicts.data(), areas.verdicts.size());
    const uint32_t shown = tullweth_show(
        file.data(), file.size(), 1, areas.found.data(), areas.found.size(), areas.links.data(),
        areas.links.size(), areas.satisfying.data(), areas.satisfying.size(),
        areas.violating.data(), areas.violating.size(), areas.answer.data(), areas.answer.size());
    const uint32_t watched = tullweth_state(file.data(), file.size(), run.data(), run.size(), 1,
                                            areas.state.data(), areas.state.size());
    std::cout << what << ": " << pruned << ' ' << shown << ' ' << watched << '\n';
}

// How many rules a file has, and what the count returned; refused, the number stays 0.
void count_all(const char *what, const std::vector<uint8_t> &file)
{
    uint32_t rules = 0;
    const uint32_t number = tullweth_count_rules(file.data(), file.size(), &rules);
    std::cout << what << ": " << rules << " rules, " << tullweth_refusal_text(number) << '\n';
}

} // namespace

int main(int argument_count, char **arguments)
{
    if (argument_count != 2)
        return 2;
    std::ifstream stream(arguments[1], std::ios::binary);
    const std::string text((std::istreambuf_iterator<char>(stream)),
                           std::istreambuf_iterator<char>());
    // No memory is left behind a vector that is made in one piece.
    const std::vector<uint8_t> file(text.begin(), text.end());
    const std::vector<uint8_t> none;
    const std::vector<uint8_t> undeclared(1, uint8_t(TULLWETH_MOST_STEPS));
    Areas areas = long_enough();
    Areas no_areas;
    std::cout << "null: " << (none.data() == nullptr) << (no_areas.found.data() == nullptr) << '\n';
    call_all("no file", none, none, areas);
    call_all("no area", file, none, no_areas);
    areas.found.pop_back();
    call_all("8191 numbers of the first area", file, none, areas);
    areas.found.push_back(0);
    areas.answer.pop_back();
    call_all("seven numbers of the answer", file, none, areas);
    areas.answer.push_back(0);
    call_all("undeclared step", file, undeclared, areas);
    call_all("no step", file, none, areas);
    const unsigned fate = areas.verdicts[0];
    std::cout << "fate " << fate << ", presence " << areas.answer[TULLWETH_SATISFYING_PRESENCE]
              << ' ' << areas.answer[TULLWETH_VIOLATING_PRESENCE] << ", value "
              << areas.state[TULLWETH_STATE_VALUE] << ", relevant "
              << areas.state[TULLWETH_STATE_RELEVANT_STEPS] << '\n';
    std::cout << tullweth_template_name(TULLWETH_PARTICIPATION) << ": " << tullweth_fate_text(fate)
              << ", " << tullweth_value_text(areas.state[TULLWETH_STATE_VALUE]) << '\n';
    count_all("no file", none);
    count_all("file", file);
    return 0;
}
