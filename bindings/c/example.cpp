/* A small `etcs` over the header for C++, with the same part of the program's command line as example.c:
 *
 *     example show|check --kind long|short|radio|train < digits
 *     example convert --kind .. --to json < digits
 *     example convert --kind .. --from json --to hex < lines
 */
#include "etcs.hpp"

#include <cctype>
#include <iomanip>
#include <iostream>
#include <map>

using namespace std::literals;

static const std::map<std::string_view, etcs::kind> kinds = {
    {"long", etcs::kind::long_telegram},
    {"short", etcs::kind::short_telegram},
    {"radio", etcs::kind::radio_message},
    {"train", etcs::kind::train_message},
};

static std::string_view option(std::span<char *> words, std::string_view name)
{
    for (std::size_t at = 2; at + 1 < words.size(); at++)
        if (words[at] == name)
            return words[at + 1];
    return "";
}

/* Digits of standard input as bytes; it takes any characters between them, which the program refuses. */
static etcs::bytes read_digits()
{
    etcs::bytes input;
    std::string pair;
    for (char each; std::cin.get(each);) {
        if (!std::isxdigit(static_cast<unsigned char>(each)))
            continue;
        pair += each;
        if (pair.size() < 2)
            continue;
        input.push_back(static_cast<std::uint8_t>(std::stoi(pair, nullptr, 16)));
        pair.clear();
    }
    return input;
}

static int report(std::size_t item, const etcs::fault &why, std::size_t left)
{
    if (why.why == etcs::status::more)
        std::cerr << "etcs: item " << item << " truncated after " << 8 * left << " bits\n";
    else if (why.why == etcs::status::refused)
        std::cerr << "etcs: item " << item << " refused at bit " << why.bit << ", " << why.variable() << '\n';
    else
        std::cerr << "etcs: line " << item << ": bad JSON\n";
    return 1;
}

/* Lines of JSON to digits. */
static int from_json(etcs::kind kind)
{
    std::string line;
    for (std::size_t number = 1; std::getline(std::cin, line); number++) {
        auto item = etcs::from_json(kind, line);
        if (!item)
            return report(number, item.error(), 0);
        for (unsigned each : *item)
            std::cout << std::hex << std::uppercase << std::setfill('0') << std::setw(2) << each;
        std::cout << '\n';
    }
    return 0;
}

/* What the word writes of the item that these bytes begin with, and how many bytes it takes. */
static etcs::result<etcs::text_of_item> answer(std::string_view word, etcs::kind kind, std::size_t item, etcs::bytes_view front)
{
    if (word == "show")
        return etcs::show(kind, front, item);
    if (word == "convert") {
        auto json = etcs::to_json(kind, front);
        if (json)
            json->text += '\n';
        return json;
    }
    auto taken = etcs::check(kind, front);
    if (!taken)
        return taken.error();
    std::size_t bits = kind == etcs::kind::long_telegram ? 830 : kind == etcs::kind::short_telegram ? 210 : 8 * *taken;
    return etcs::text_of_item{"item " + std::to_string(item) + " ok " + std::to_string(bits) + " bits\n", *taken};
}

int main(int argc, char **argv)
{
    std::span words(argv, static_cast<std::size_t>(argc));
    auto kind = kinds.find(option(words, "--kind"));
    if (words.size() < 4 || kind == kinds.end())
        return 2;
    if (option(words, "--from") == "json"sv)
        return from_json(kind->second);
    etcs::bytes input = read_digits();
    etcs::bytes_view left = input;
    for (std::size_t item = 1; !left.empty(); item++) {
        auto said = answer(words[1], kind->second, item, left);
        if (!said)
            return report(item, said.error(), left.size());
        std::cout << said->text;
        left = left.subspan(said->taken);
    }
    return 0;
}
