// Prints what `msat satisfy TEXT` prints for an asset file, from C++, and compares it with the calls without a report.
// Usage: satisfy TEXT ASSET-FILE
#include <msat.h>
#include <msat_psbt.h>

#include <cstring>
#include <fstream>
#include <iostream>
#include <iterator>
#include <string>
#include <vector>

// A member whose name is a function's: with MSAT_ASSERT a macro takes only what has a parenthesis behind it.
struct Calls {
    std::uint32_t (*check)(bool, const char *, std::size_t, msat_facts *, msat_reason *);
};

int main(int argc, char **argv) {
    if (argc != 3)
        return 1;
    const std::string text = argv[1];
    std::ifstream stream(argv[2], std::ios::binary);
    const std::string file((std::istreambuf_iterator<char>(stream)), std::istreambuf_iterator<char>());
    const std::string words = std::string("satisfy") + '\0' + text + '\0';
    std::string report(4096, '\0');
    std::size_t needed = 0;
    const std::uint32_t code = msat_answer(2, words.data(), words.size(), file.data(), file.size(), &report[0], report.size(), &needed);
    if (needed > report.size())
        return MSAT_NO_MEMORY;
    std::cout << report.substr(0, needed);

    std::vector<std::uint8_t> bytes(4096);
    std::vector<std::size_t> lengths(128);
    std::size_t count = 0;
    msat_reason reason = msat_reason();
    msat_facts facts = msat_facts();
    const Calls calls = {(msat_check)};
    if (calls.check(false, text.data(), text.size(), &facts, &reason) != MSAT_DONE)
        return 99;
    if (msat_witness(false, false, text.data(), text.size(), file.data(), file.size(), bytes.data(), bytes.size(), &needed, lengths.data(),
                     lengths.size(), &count, &reason) != code)
        return 99;
    if (count > facts.items + 1 || needed > facts.weight + facts.size)
        return 99;
    std::vector<std::uint8_t> asked(4096);
    std::uint64_t weight = 0;
    if (msat_plan(text.data(), text.size(), 2, 0, 0, NULL, 0, NULL, 0, NULL, 0, asked.data(), asked.size(), &needed, &weight, &reason) !=
        MSAT_NO_SATISFACTION)
        return 99;
    msat_outcome outcome = msat_outcome();
    const std::uint8_t script[] = {0x51};
    if (msat_run(2, 0, 0, script, sizeof script, NULL, 0, NULL, 0, NULL, 0, NULL, 0, NULL, 0, bytes.data(), bytes.size(), &needed, lengths.data(),
                 lengths.size(), &count, &outcome, &reason) != MSAT_DONE ||
        outcome.peak != 1 || count != 0)
        return 99;
    std::vector<msat_step> steps(16);
    bool canonical = true;
    if (msat_audit(text.data(), text.size(), 2, 0, 0, script, sizeof script, NULL, 0, NULL, 0, NULL, 0, NULL, 0, NULL, 0, steps.data(), steps.size(),
                   &count, &canonical, &outcome, &reason) != MSAT_NOT_ACCEPTED ||
        std::strcmp(msat_run_fault_name(outcome.fault), "WrongScript") != 0 || canonical)
        return 99;
    if (std::strcmp(msat_rule_name(MSAT_RULE_AND_VX), "AndVX") != 0 || msat_version() != MSAT_VERSION_NUMBER)
        return 99;
    const std::string told = "psbt inputs 0 outputs 0 version 2 locktime 0 txid 00\nfee 0 proved\n";
    msat_psbt_reader reader = {told.data(), told.size(), MSAT_PSBT_NO_INPUT};
    msat_psbt_line line;
    if (!msat_psbt_next(&reader, &line) || line.version != 2 || !msat_psbt_next(&reader, &line) || line.known != MSAT_PSBT_PROVED)
        return 99;
    return static_cast<int>(code);
}
