// The programs run as processes, each output held beside the independent program's.

#ifndef PROGRAMS_HPP
#define PROGRAMS_HPP

#include <cstdio>
#include <cstdlib>
#include <fstream>
#include <iterator>
#include <string>

#include "library.hpp"

namespace programs {

using independent::Bytes;
using independent::Outcome;
using independent::Printed;
using library::Difference;

constexpr const char* judge_path = "target/bin/judge_main";
constexpr const char* planner_path = "target/bin/plan_main";
constexpr const char* why_path = "target/bin/why_main";
constexpr const char* net_path = "target/bin/net_main";
constexpr const char* folder = "target/compare/";

inline std::string text_in(const std::string& file) {
    std::ifstream stream(file, std::ios::binary);
    return std::string(std::istreambuf_iterator<char>(stream), std::istreambuf_iterator<char>());
}

inline std::string to_string(const Bytes& bytes) { return std::string(bytes.begin(), bytes.end()); }

// What a shell command prints with this standard input.
inline Printed run(const std::string& name, const std::string& command, const Bytes& input) {
    const std::string file = folder + name;
    std::ofstream(file + ".in", std::ios::binary) << to_string(input);
    const std::string all = "{ " + command + "; } <" + file + ".in >" + file + ".out 2>" + file + ".err";
    if (std::system(all.c_str()) != 0) throw Difference(command + " failed on " + independent::hex(input));
    return Printed{text_in(file + ".out"), text_in(file + ".err")};
}

// The same with bytes that are not text in hexadecimal.
inline std::string visible(const Printed& printed) {
    std::string shown;
    for (char byte : printed.output + printed.errors) {
        const bool is_text = byte == '\n' || (byte >= ' ' && byte <= '~');
        shown += is_text ? std::string(1, byte) : "\\" + independent::hex(Bytes{static_cast<uint8_t>(byte)});
    }
    return shown;
}

inline void must_print(const std::string& command, const Bytes& input, const Printed& wanted, const Printed& got) {
    if (wanted.output == got.output && wanted.errors == got.errors) return;
    throw Difference(command + "\ninput " + independent::hex(input) + "\nindependent: " + visible(wanted)
                     + "\nprogram:     " + visible(got));
}

// What a program's text begins with: all 0 unless it is refused.
inline Outcome outcome_in(const std::string& text) {
    Outcome outcome;
    std::sscanf(text.c_str(), "refused %u at %u cart %u step %u", &outcome.number, &outcome.place, &outcome.cart, &outcome.step);
    return outcome;
}

// "It reads the first 2,048 bytes of standard input and no more": what it leaves is printed after it.
inline Outcome compare_judge(const Bytes& input) {
    const std::string text = independent::judge_program(input);
    const std::string left = to_string(input).substr(std::min<size_t>(input.size(), 2048));
    const std::string command = std::string(judge_path) + " && cat";
    must_print(command, input, Printed{text + left, ""}, run("judge", command, input));
    return outcome_in(text);
}

// The same of the program that says why; what it gives back where the input is too short is not said.
inline Outcome compare_why(const Bytes& input) {
    Printed wanted = independent::why_program(input);
    const Outcome outcome = outcome_in(wanted.output);
    wanted.output += to_string(input).substr(std::min<size_t>(input.size(), 2048));
    const std::string command = std::string(why_path) + (wanted.errors.empty() ? " && cat" : "; cat");
    must_print(command, input, wanted, run("why", command, input));
    return outcome;
}

// The same of the program that prints the net, which says a refusal as standard error.
inline Outcome compare_net(const Bytes& input, bool dot) {
    Printed wanted = independent::net_program(input, dot);
    const Outcome outcome = outcome_in(wanted.errors);
    wanted.output += to_string(input).substr(std::min<size_t>(input.size(), 2048));
    const std::string command = std::string(net_path) + (dot ? " dot" : "") + " && cat";
    must_print(command, input, wanted, run("net", command, input));
    return outcome;
}

// Other words are none of its: what it gives back then is not said.
inline void compare_net_words(const std::string& words) {
    const std::string command = std::string(net_path) + " " + words + " || true";
    must_print(command, {}, Printed{"", "oblakosh: net_main takes no word, or dot\n"}, run("net", command, {}));
}

// The word that asks the planner program for this planner.
inline std::string word_for(independent::Planner planner) {
    switch (planner) {
        case independent::Planner::first_come: return " first";
        case independent::Planner::better: return " better";
        default: return "";
    }
}

// Document 01 has no planner program: ours prints the plan, or the refusal as standard error.
inline Outcome compare_planner(const Bytes& sheet, independent::Planner planner) {
    const independent::PlanningAnswer answer = independent::make_plan(sheet, Bytes(156, 0), planner);
    Printed wanted;
    if (answer.number == 0) {
        wanted.output = to_string(answer.room).substr(0, answer.length);
    } else {
        wanted.errors = independent::refusal_line(answer);
    }
    const std::string command = planner_path + word_for(planner);
    must_print(command, sheet, wanted, run("planner", command, sheet));
    return answer;
}

}  // namespace programs

#endif
