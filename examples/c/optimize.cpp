// Reads a module from standard input, and writes to standard output what naga_opt writes:
//
//     optimize --passes LIST    the JSON of what the passes make of it
//     optimize --check          the report on it; the exit status is 1 if it has a fault
//     optimize --text           its readable text
//
// The exit status is 1 after an error, whose message goes to standard error, 2 for other arguments, and 3 if the library
// has another version than the header. Notes on the passes are not written.
#include "naga_opt.h"

#include <iostream>
#include <iterator>
#include <memory>
#include <stdexcept>
#include <string>

namespace {

uint8_t *bytes_of(std::string &text)
{
    return reinterpret_cast<uint8_t *>(&text[0]);
}

// The error of a call, with its message, which ends at the first zero.
std::runtime_error error(const std::string &message)
{
    return std::runtime_error(message.c_str());
}

std::string run(std::string &text, const std::string &passes)
{
    std::string message(100000, '\0');
    naga_opt_answer answer;
    std::ptrdiff_t length = naga_opt_run_new(bytes_of(text), text.size(), passes.data(), passes.size(), &answer,
                                             bytes_of(message), message.size());
    if (length < 0)
        throw error(message);
    std::unique_ptr<naga_opt_answer, void (*)(naga_opt_answer *)> freed(&answer, [](naga_opt_answer *it) {
        naga_opt_free(*it);
    });
    return std::string(answer.text, answer.text + answer.length);
}

// Returns the text that a call writes, which takes the two buffers, or throws its error.
template <typename Call> std::string answer(Call call)
{
    std::string message(100000, '\0'), out;
    for (;;) {
        std::ptrdiff_t needed = call(bytes_of(out), out.size(), bytes_of(message), message.size());
        if (needed < 0)
            throw error(message);
        std::size_t size = static_cast<std::size_t>(needed);
        bool whole = size <= out.size();
        out.resize(size);
        if (whole)
            return out;
    }
}

std::string show(std::string &text)
{
    return answer([&](uint8_t *out, std::size_t out_length, uint8_t *message, std::size_t message_length) {
        return naga_opt_text(bytes_of(text), text.size(), out, out_length, message, message_length);
    });
}

// Returns the report on a module, and sets the number of faults.
std::string check(std::string &text, std::size_t &faults)
{
    return answer([&](uint8_t *out, std::size_t out_length, uint8_t *message, std::size_t message_length) {
        return naga_opt_check(bytes_of(text), text.size(), out, out_length, &faults, message, message_length);
    });
}

} // namespace

int main(int count, char **arguments)
{
    const std::string task = count > 1 ? arguments[1] : "";
    std::size_t faults = 0;
    std::string text{std::istreambuf_iterator<char>(std::cin), std::istreambuf_iterator<char>()};
    if (naga_opt_version() != NAGA_OPT_VERSION)
        return 3;
    try {
        if (task == "--passes" && count == 3)
            std::cout << run(text, arguments[2]) << '\n';
        else if (task == "--check" && count == 2)
            std::cout << check(text, faults);
        else if (task == "--text" && count == 2)
            std::cout << show(text);
        else
            return 2;
    } catch (const std::runtime_error &fault) {
        std::cerr << "naga_opt: " << fault.what() << '\n';
        return 1;
    }
    return std::cout.flush() && !faults ? 0 : 1;
}
