/* Balise telegrams and radio messages of ETCS for C++20: the calls of etcs.h over spans and strings, with values as results.
 *
 *     std::vector<std::uint8_t> telegram = ..;
 *     if (auto whole = etcs::fields(etcs::kind::short_telegram, telegram))
 *         for (const etcs::field &each : whole->fields) ..
 *     else if (whole.error().why == etcs::status::refused)
 *         std::cerr << "bit " << whole.error().bit << ", " << whole.error().variable() << '\n';
 *
 * etcs.h describes each call and names what is proved of it; this header is compiled into the caller, and is tested, not
 * proved. Nothing has to be freed. All functions may be called at any time by any thread. They need the stack that etcs.h
 * names.
 *
 * Throws std::bad_alloc without memory, and std::invalid_argument for a kind that is none of the four. Whatever else the bytes,
 * the JSON or the fields are is a result.
 */
#ifndef ETCS_HPP
#define ETCS_HPP

#include "etcs_help.h"

#include <algorithm>
#include <array>
#include <bitset>
#include <cstddef>
#include <cstdint>
#include <new>
#include <optional>
#include <span>
#include <stdexcept>
#include <string>
#include <string_view>
#include <utility>
#include <variant>
#include <vector>

namespace etcs {

/* ---- What goes in and out. */

using bytes = std::vector<std::uint8_t>;
using bytes_view = std::span<const std::uint8_t>;
using field = ::etcs_field;       /* number, var (of etcs::variable), width */
using field_place = ::etcs_place; /* packet, entry, inner */
using telegram = ::etcs_telegram; /* see make_telegram */

enum class kind : etcs_kind {
    long_telegram = ETCS_LONG,
    short_telegram = ETCS_SHORT,
    radio_message = ETCS_RADIO, /* to the train */
    train_message = ETCS_TRAIN  /* from the train to the track */
};

/* Why there is no result. */
enum class status : etcs_status {
    more = ETCS_MORE,       /* the bytes begin an item but hold no whole one */
    refused = ETCS_REFUSED, /* no item continues with a bit: fault::bit, fault::variable() */
    bad_json = ETCS_BAD_JSON,
    bad_fields = ETCS_BAD_FIELDS,
    empty_line = ETCS_EMPTY_LINE,
    no_digits = ETCS_NO_DIGITS,
    odd_digits = ETCS_ODD_DIGITS, /* fault::count */
    clash_position = ETCS_CLASH_POSITION, /* the clashes: fault::count is the telegram's place, as it is with refused */
    clash_duplicate = ETCS_CLASH_DUPLICATE,
    clash_group = ETCS_CLASH_GROUP,
    clash_total = ETCS_CLASH_TOTAL,
    clash_counter = ETCS_CLASH_COUNTER,
    clash_differs = ETCS_CLASH_DIFFERS
};

/* The variables' numbers, those of field::var: etcs::variable::D_LINK. */
namespace variable {
#define ETCS_VAR(number, name, text) inline constexpr std::uint32_t name = number;
ETCS_VARS(ETCS_VAR)
#undef ETCS_VAR
} /* namespace variable */

/* A variable's name as the standard prints it; "" if no variable has the number. */
inline std::string_view variable_name(std::uint32_t var) { return ::etcs_var_name(var); }

/* A status in words. */
inline std::string_view to_string(status why) { return ::etcs_status_text(static_cast<etcs_status>(why)); }

/* What other types hold, as bytes. */
inline bytes_view bytes_of(std::string_view text) { return {reinterpret_cast<const std::uint8_t *>(text.data()), text.size()}; }
inline bytes_view bytes_of(std::span<const std::byte> input)
{
    return {reinterpret_cast<const std::uint8_t *>(input.data()), input.size()};
}

/* Why there is no result. The comment of each status names the members that it has. */
struct fault {
    status why;
    std::size_t bit = 0;   /* the first refused bit, from 0, the top bit of the first byte */
    std::size_t count = 0; /* of an odd number of digits, how many; of telegrams, which */
    std::array<char, 32> name{};

    /* The variable that holds the bit. */
    std::string_view variable() const { return name.data(); }
    std::string_view text() const { return to_string(why); }
};

/* A value, or why there is none: what std::expected<T, fault> is in C++23. */
template <class T>
class result {
public:
    result(T value) : held(std::in_place_index<0>, std::move(value)) {}
    result(const fault &why) : held(std::in_place_index<1>, why) {}

    bool has_value() const noexcept { return held.index() == 0; }
    explicit operator bool() const noexcept { return has_value(); }

    /* Throws std::bad_variant_access if there is none. */
    const T &value() const & { return std::get<0>(held); }
    T &value() & { return std::get<0>(held); }
    T &&value() && { return std::get<0>(std::move(held)); }
    T value_or(T other) const & { return has_value() ? **this : std::move(other); }
    T value_or(T other) && { return has_value() ? *std::move(*this) : std::move(other); }

    /* Throws std::bad_variant_access if there is a value. */
    const fault &error() const { return std::get<1>(held); }

    /* Not checked: there has to be a value. */
    const T &operator*() const & noexcept { return *std::get_if<0>(&held); }
    T &operator*() & noexcept { return *std::get_if<0>(&held); }
    T &&operator*() && noexcept { return std::move(*std::get_if<0>(&held)); }
    const T *operator->() const noexcept { return std::get_if<0>(&held); }
    T *operator->() noexcept { return std::get_if<0>(&held); }

private:
    std::variant<T, fault> held;
};

namespace detail {

inline std::uint8_t *octets(std::string &text) { return reinterpret_cast<std::uint8_t *>(text.data()); }
inline std::uint8_t *octets(bytes &out) { return out.data(); }
inline field *octets(std::vector<field> &out) { return out.data(); }
inline field_place *octets(std::vector<field_place> &out) { return out.data(); }

/* A status that isn't a fault of the input is an exception. */
inline etcs_status checked(etcs_status status)
{
    if (status == ETCS_NO_MEMORY)
        throw std::bad_alloc();
    if (status == ETCS_UNKNOWN_KIND)
        throw std::invalid_argument("etcs: no such kind");
    return status;
}

inline fault fault_of(etcs_status status, const etcs_answer &answer)
{
    fault found{static_cast<etcs::status>(status), answer.bit, answer.taken, {}};
    std::copy(std::begin(answer.var), std::end(answer.var), found.name.begin());
    return found;
}

/* Calls with some room, and again with enough if that is too little. What was written is left in out: what a call writes with
 * ETCS_OK, and if it is a reason what it writes with other statuses. */
template <class Out, class Call>
etcs_status write(Out &out, std::size_t room, bool is_reason, etcs_answer &answer, Call call)
{
    out.resize(room);
    etcs_status status = checked(call(octets(out), out.size(), &answer));
    if (status == ETCS_NO_ROOM) {
        out.resize(answer.written);
        status = checked(call(octets(out), out.size(), &answer));
    }
    bool is_written = status == ETCS_OK
        || (is_reason && (status == ETCS_MORE || status == ETCS_REFUSED || status == ETCS_BAD_JSON));
    out.resize(is_written ? answer.written : 0);
    return status;
}

/* Room that is enough for most texts, for most items' fields, and for the bytes of any item. */
inline constexpr std::size_t text_room = 2048;
inline constexpr std::size_t field_room = 256;
inline constexpr std::size_t item_room = ETCS_MOST_BYTES;

} /* namespace detail */

/* ---- Reading: what bytes begin with. Bytes after the item are ignored. The fault's status is more or refused. */

struct text_of_item {
    std::string text;
    std::size_t taken; /* how many bytes the item takes */
};

struct fields_of_item {
    std::vector<field> fields; /* in the order of sending */
    std::size_t taken;
};

/* How many bytes the item takes. */
inline result<std::size_t> check(kind of, bytes_view input)
{
    etcs_answer answer{};
    etcs_status status = detail::checked(::etcs_check(static_cast<etcs_kind>(of), input.data(), input.size(), &answer));
    if (status != ETCS_OK)
        return detail::fault_of(status, answer);
    return answer.taken;
}

/* The text of `etcs show`, as that of item number item. */
inline result<text_of_item> show(kind of, bytes_view input, std::uint64_t item = 1)
{
    etcs_answer answer{};
    text_of_item found{};
    auto call = [&](std::uint8_t *out, std::size_t room, etcs_answer *a) {
        return ::etcs_show(static_cast<etcs_kind>(of), item, input.data(), input.size(), out, room, a);
    };
    etcs_status status = detail::write(found.text, detail::text_room, false, answer, call);
    if (status != ETCS_OK)
        return detail::fault_of(status, answer);
    found.taken = answer.taken;
    return found;
}

/* The item's JSON, without a line feed. */
inline result<text_of_item> to_json(kind of, bytes_view input)
{
    etcs_answer answer{};
    text_of_item found{};
    auto call = [&](std::uint8_t *out, std::size_t room, etcs_answer *a) {
        return ::etcs_to_json(static_cast<etcs_kind>(of), input.data(), input.size(), out, room, a);
    };
    etcs_status status = detail::write(found.text, detail::text_room, false, answer, call);
    if (status != ETCS_OK)
        return detail::fault_of(status, answer);
    found.taken = answer.taken;
    return found;
}

/* The item's variables. */
inline result<fields_of_item> fields(kind of, bytes_view input)
{
    etcs_answer answer{};
    fields_of_item found{};
    auto call = [&](field *out, std::size_t room, etcs_answer *a) {
        return ::etcs_fields(static_cast<etcs_kind>(of), input.data(), input.size(), out, room, a);
    };
    etcs_status status = detail::write(found.fields, detail::field_room, false, answer, call);
    if (status != ETCS_OK)
        return detail::fault_of(status, answer);
    found.taken = answer.taken;
    return found;
}

/* The place of each of these variables: which packet it is of, and its entry in each repeated group. */
inline result<std::vector<field_place>> places(kind of, bytes_view input)
{
    etcs_answer answer{};
    std::vector<field_place> found;
    auto call = [&](field_place *out, std::size_t room, etcs_answer *a) {
        return ::etcs_places(static_cast<etcs_kind>(of), input.data(), input.size(), out, room, a);
    };
    etcs_status status = detail::write(found, detail::field_room, false, answer, call);
    if (status != ETCS_OK)
        return detail::fault_of(status, answer);
    return found;
}

/* ---- Writing. */

/* The bytes of the item that has this JSON. The fault's status is bad_json, or refused: see explain_json. */
inline result<bytes> from_json(kind of, std::string_view line)
{
    etcs_answer answer{};
    bytes found;
    auto call = [&](std::uint8_t *out, std::size_t room, etcs_answer *a) {
        return ::etcs_from_json(static_cast<etcs_kind>(of), bytes_of(line).data(), line.size(), out, room, a);
    };
    etcs_status status = detail::write(found, detail::item_room, false, answer, call);
    if (status != ETCS_OK)
        return detail::fault_of(status, answer);
    return found;
}

/* The bytes of the item that has exactly these fields. The fault's status is bad_fields, more or refused. */
inline result<bytes> from_fields(kind of, std::span<const field> sent)
{
    etcs_answer answer{};
    bytes found;
    auto call = [&](std::uint8_t *out, std::size_t room, etcs_answer *a) {
        return ::etcs_from_fields(static_cast<etcs_kind>(of), sent.data(), sent.size(), out, room, a);
    };
    etcs_status status = detail::write(found, detail::item_room, false, answer, call);
    if (status != ETCS_OK)
        return detail::fault_of(status, answer);
    return found;
}

/* The place of the first field of this variable, from place `from` on. */
inline std::optional<std::size_t> find(std::span<const field> in, std::uint32_t var, std::size_t from = 0)
{
    std::size_t at = ::etcs_find(in.data(), in.size(), var, from);
    return at < in.size() ? std::optional(at) : std::nullopt;
}

/* The bit where the field at a place begins, or, for the place in.size(), how many bits there are. */
inline std::size_t bit_of(std::span<const field> in, std::size_t place) { return ::etcs_bit_of(in.data(), place); }

/* ---- Why input is refused: nothing if it isn't. */

/* Why a bit is refused: a sentence. */
inline std::optional<std::string> explain(kind of, bytes_view input)
{
    etcs_answer answer{};
    std::string found;
    auto call = [&](std::uint8_t *out, std::size_t room, etcs_answer *a) {
        return ::etcs_explain(static_cast<etcs_kind>(of), input.data(), input.size(), out, room, a);
    };
    etcs_status status = detail::write(found, detail::text_room, true, answer, call);
    return status == ETCS_REFUSED ? std::optional(std::move(found)) : std::nullopt;
}

/* Why no item has this JSON: the path of what is wrong, and a sentence. */
inline std::optional<std::string> explain_json(kind of, std::string_view line)
{
    etcs_answer answer{};
    std::string found;
    auto call = [&](std::uint8_t *out, std::size_t room, etcs_answer *a) {
        return ::etcs_explain_json(static_cast<etcs_kind>(of), bytes_of(line).data(), line.size(), out, room, a);
    };
    etcs_status status = detail::write(found, detail::text_room, true, answer, call);
    return status == ETCS_OK ? std::nullopt : std::optional(std::move(found));
}

/* The same as an object of JSON: its path, column, what was expected and found, and the sentence, each null if there is none. */
inline std::optional<std::string> json_reason(kind of, std::string_view line)
{
    etcs_answer answer{};
    std::string found;
    auto call = [&](std::uint8_t *out, std::size_t room, etcs_answer *a) {
        return ::etcs_json_reason(static_cast<etcs_kind>(of), bytes_of(line).data(), line.size(), out, room, a);
    };
    etcs_status status = detail::write(found, detail::text_room, true, answer, call);
    return status == ETCS_OK ? std::nullopt : std::optional(std::move(found));
}

/* The fields of variables before a refused bit. */
inline std::optional<std::vector<field>> fields_before(kind of, bytes_view input)
{
    etcs_answer answer{};
    std::vector<field> found;
    auto call = [&](field *out, std::size_t room, etcs_answer *a) {
        return ::etcs_fields_before(static_cast<etcs_kind>(of), input.data(), input.size(), out, room, a);
    };
    etcs_status status = detail::write(found, detail::field_room, true, answer, call);
    return status == ETCS_REFUSED ? std::optional(std::move(found)) : std::nullopt;
}

/* Why no number comes there: the tables have none that begins with these bits, or they have one but none that fits. */
enum class cause : std::uint32_t { spare = ETCS_SPARE, unfit = ETCS_UNFIT };

/* What comes there, as far as it limits the numbers of the variable. */
enum class place : std::uint32_t {
    any = ETCS_ANY,
    message_length = ETCS_MESSAGE_LENGTH,
    packet_number = ETCS_PACKET_NUMBER,
    packet_length = ETCS_PACKET_LENGTH,
    row = ETCS_ROW
};

/* Why a bit is refused, as numbers; etcs_reason of etcs.h describes them. */
struct reason {
    fault where;                         /* bit, variable() */
    std::uint64_t bits;                  /* the variable's bits up to and with the refused one, as a number */
    std::uint64_t count;                 /* how many these are */
    etcs::cause cause;
    place here;
    std::optional<std::uint64_t> number; /* the variable's, if the bytes have all of its bits */
    std::optional<std::uint64_t> below;  /* the nearest numbers that may come there */
    std::optional<std::uint64_t> above;
    std::optional<std::uint64_t> unfit;  /* one that begins with these bits and that the tables have */
    std::optional<std::uint64_t> room;   /* how many bits are left */
    std::optional<std::uint32_t> nid;    /* the number of the packet or the message */
};

inline std::optional<reason> refusal(kind of, bytes_view input)
{
    etcs_answer answer{};
    etcs_reason found{};
    etcs_status status = detail::checked(::etcs_refusal(static_cast<etcs_kind>(of), input.data(), input.size(), &found, &answer));
    if (status != ETCS_REFUSED)
        return std::nullopt;
    auto has = [&](std::uint32_t member, auto value) { return found.has & member ? std::optional(value) : std::nullopt; };
    return reason{
        detail::fault_of(status, answer),
        found.bits,
        found.count,
        static_cast<cause>(found.cause),
        static_cast<place>(found.here),
        has(ETCS_HAS_NUMBER, found.number),
        has(ETCS_HAS_BELOW, found.below),
        has(ETCS_HAS_ABOVE, found.above),
        found.cause == ETCS_UNFIT ? std::optional(found.unfit) : std::nullopt,
        has(ETCS_HAS_ROOM, found.room),
        has(ETCS_HAS_NID, found.nid),
    };
}

/* ---- What numbers mean, the digits of lines, and balise groups. */

struct meaning_of_number {
    std::string name; /* the variable's, as the standard prints it */
    std::string text; /* "" if the number has no meaning */
};

/* What a number means, in the words of `etcs explain`; nothing if no variable has the number var. A distance is in metres by
 * scale, the Q_SCALE of its packet or message. */
inline std::optional<meaning_of_number> meaning(kind of, std::uint32_t var, std::uint64_t number, std::uint32_t scale = 3)
{
    etcs_answer answer{};
    meaning_of_number found{};
    auto call = [&](std::uint8_t *out, std::size_t room, etcs_answer *a) {
        return ::etcs_meaning(static_cast<etcs_kind>(of), var, number, scale, out, room, a);
    };
    if (detail::write(found.text, detail::text_room, false, answer, call) != ETCS_OK)
        return std::nullopt;
    found.name = answer.var;
    return found;
}

/* The bytes of the hexadecimal digits of a line, by the rule of `etcs log`. The fault's status is empty_line, no_digits or
 * odd_digits. */
inline result<bytes> line_bytes(std::string_view line)
{
    etcs_answer answer{};
    bytes found;
    auto call = [&](std::uint8_t *out, std::size_t room, etcs_answer *a) {
        return ::etcs_line_bytes(bytes_of(line).data(), line.size(), out, room, a);
    };
    etcs_status status = detail::write(found, line.size() / 2, false, answer, call);
    if (status != ETCS_OK)
        return detail::fault_of(status, answer);
    return found;
}

/* What is before the digits of a line, such as a time; without a byte order mark, and without blanks before the digits. */
inline std::string_view line_front(std::string_view line)
{
    std::size_t count = ::etcs_line_front(bytes_of(line).data(), line.size());
    return line.substr(line.starts_with("\xEF\xBB\xBF") ? 3 : 0, count);
}

/* A telegram of a balise group. Throws std::invalid_argument for a kind of messages, and for more than 104 bytes. */
inline telegram make_telegram(kind of, bytes_view input)
{
    telegram made{static_cast<etcs_kind>(of), {}};
    if ((of != kind::long_telegram && of != kind::short_telegram) || input.size() > sizeof made.bytes)
        throw std::invalid_argument("etcs: no telegram");
    std::copy(input.begin(), input.end(), made.bytes);
    return made;
}

struct group {
    std::bitset<8> missing; /* which of the positions 0 to 7 are missing */
    bool is_complete;       /* there is a telegram, and no position is missing */
};

/* What telegrams of one balise group make together. Otherwise the fault's count is the place of the first telegram that isn't
 * held, and its status is refused or one of the clashes. */
inline result<group> assemble(std::span<const telegram> telegrams)
{
    etcs_answer answer{};
    etcs_group found{};
    etcs_status status = detail::checked(::etcs_assemble(telegrams.data(), telegrams.size(), &found, &answer));
    if (status != ETCS_OK)
        return detail::fault_of(status, answer);
    group made{{}, found.is_complete != 0};
    for (std::size_t at = 0; at < made.missing.size(); at++)
        made.missing[at] = found.missing[at] != 0;
    return made;
}

/* The version of the library; that of this header is ETCS_VERSION. That of an unproved library ends with " unproved". */
inline std::string version()
{
    etcs_answer answer{};
    std::string found;
    auto call = [](std::uint8_t *out, std::size_t room, etcs_answer *a) { return ::etcs_version(out, room, a); };
    detail::write(found, detail::text_room, false, answer, call);
    found.pop_back(); /* its zero */
    return found;
}

/* ---- Items in pieces. */

/* Reads items from pieces of any length, single bytes too, as etcs_reader of etcs_help.h does, which says when a refused bit is
 * reported. Only one thread at a time may use it. After a fault it has the same fault for ever.
 *
 *     etcs::reader reader(etcs::kind::radio_message);
 *     while (auto piece = receive())
 *         if (auto why = reader.feed(*piece, [](etcs::bytes_view item) { .. }))
 *             return *why;
 *     if (auto why = reader.end()) ..   status::more: the input ends inside an item
 */
class reader {
public:
    explicit reader(kind of)
    {
        ::etcs_reader_start(&inner, static_cast<etcs_kind>(of));
    }

    /* Calls each with each item that is whole by now, which is valid during the call. It may throw: the reader is then after
     * that item, and the rest of the piece is lost. */
    template <class Each>
    std::optional<fault> feed(bytes_view piece, Each &&each)
    {
        etcs_answer answer{};
        for (std::size_t used = 0; !piece.empty(); piece = piece.subspan(used)) {
            etcs_status status = detail::checked(::etcs_reader_feed(&inner, piece.data(), piece.size(), &used, &answer));
            if (status == ETCS_OK)
                each(bytes_view(inner.bytes, answer.taken));
            else if (status != ETCS_MORE)
                return detail::fault_of(status, answer);
        }
        return std::nullopt;
    }

    /* Ends the input: nothing if all of its items are whole. */
    std::optional<fault> end()
    {
        etcs_answer answer{};
        etcs_status status = detail::checked(::etcs_reader_end(&inner, &answer));
        return status == ETCS_OK ? std::nullopt : std::optional(detail::fault_of(status, answer));
    }

    /* The bytes of an item that isn't whole yet, or that is refused, for explain. */
    bytes_view kept() const { return {inner.bytes, inner.len}; }

private:
    etcs_reader inner;
};

} /* namespace etcs */

#endif
