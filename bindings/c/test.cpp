/* Tests etcs.hpp: each function with an item, the front of one, what is refused, nothing, and without memory. It says what isn't
 * as it should be, and finally how much was tested. Linked with -Wl,--wrap=malloc,--wrap=realloc. */
#include "etcs.hpp"

#include <climits>
#include <cstdio>
#include <cstdlib>
#include <type_traits>

static long left = LONG_MAX;
extern "C" {
void *__real_malloc(std::size_t size);
void *__real_realloc(void *at, std::size_t size);
void *__wrap_malloc(std::size_t size);
void *__wrap_realloc(void *at, std::size_t size);
void *__wrap_malloc(std::size_t size) { return left-- <= 0 ? nullptr : __real_malloc(size); }
void *__wrap_realloc(void *at, std::size_t size) { return left-- <= 0 ? nullptr : __real_realloc(at, size); }
}

static int count, wrong;
static void expect(bool is_so, int line, const char *what)
{
    count++;
    if (is_so)
        return;
    wrong++;
    std::printf("line %d: %s\n", line, what);
}
#define EXPECT(...) expect((__VA_ARGS__), __LINE__, #__VA_ARGS__)

template <class Exception, class Call>
static bool throws(Call call)
{
    try {
        call();
        return false;
    } catch (const Exception &) {
        return true;
    }
}

/* Whether a call of the library that gets no memory throws bad_alloc. */
template <class Call>
static bool starves(Call call)
{
    left = 0;
    bool is_thrown = throws<std::bad_alloc>(call);
    left = LONG_MAX;
    return is_thrown;
}

using etcs::kind;
using etcs::status;

static etcs::bytes of(std::string_view digits) { return etcs::line_bytes(digits).value(); }

/* message 24 with packet 137, a message to the track, a short telegram, a message whose bits are kept */
static const etcs::bytes radio = of("18034000000000080031280620");
static const etcs::bytes train = of("8806800078900001348001028C610000FA5000A0015028061060");
static const etcs::bytes short_one = of("A0007F802000CB200C7FFFFFFFFFFFFFFFFFFFFFFFFFFFFFFFFFC0");
static const etcs::bytes kept = [] {
    etcs::bytes made(1023, 0xAA);
    made[0] = 0x07, made[1] = 0xFF, made[2] = 0xC0;
    return made;
}();
/* L_MESSAGE 11 is no length of message 24 */
static const etcs::bytes refused = of("1802C000000000080031280620");
static const std::string_view sentence = "message 24 has 10 or 13 to 1023 bytes, not 11";

static bool is_refused(const etcs::fault &why)
{
    return why.why == status::refused && why.bit == 17 && why.variable() == "L_MESSAGE";
}

static void test_item(kind of, const etcs::bytes &item)
{
    etcs::bytes longer = item;
    longer.push_back(0);
    etcs::bytes_view front(item.data(), item.size() - 1), none;
    EXPECT(etcs::check(of, longer).value() == item.size());
    EXPECT(etcs::check(of, front).error().why == status::more && etcs::check(of, none).error().why == status::more);

    auto text = etcs::show(of, longer, 7);
    EXPECT(text && text->taken == item.size() && text->text.starts_with("item 7 "));
    EXPECT(etcs::show(of, item)->text.starts_with("item 1 ") && etcs::show(of, front).error().why == status::more);

    auto json = etcs::to_json(of, longer);
    EXPECT(json && json->taken == item.size() && json->text.front() == '{' && json->text.back() == '}');
    EXPECT(etcs::from_json(of, json->text).value() == item && etcs::to_json(of, front).error().why == status::more);
    EXPECT(!etcs::explain_json(of, json->text) && !etcs::json_reason(of, json->text));

    auto sent = etcs::fields(of, longer);
    EXPECT(sent && sent->taken == item.size() && etcs::from_fields(of, sent->fields).value() == item);
    EXPECT(etcs::bit_of(sent->fields, sent->fields.size()) == 8 * item.size());
    EXPECT(etcs::fields(of, front).error().why == status::more);

    auto places = etcs::places(of, longer);
    EXPECT(places && places->size() == sent->fields.size() && places->front().packet == 0 && places->back().packet == 0);
    EXPECT(etcs::places(of, front).error().why == status::more && starves([&] { etcs::places(of, item); }));

    EXPECT(!etcs::explain(of, item) && !etcs::explain(of, front) && !etcs::explain(of, none));
    EXPECT(!etcs::refusal(of, item) && !etcs::refusal(of, front) && !etcs::fields_before(of, item) && !etcs::fields_before(of, none));

    EXPECT(starves([&] { etcs::show(of, item); }) && starves([&] { etcs::to_json(of, item); }) && starves([&] { etcs::fields(of, item); }));
    EXPECT(starves([&] { etcs::from_json(of, json->text); }) && starves([&] { etcs::from_fields(of, sent->fields); }));
}

/* Packet 27 of a short telegram: NC_CDDIFF is in the second entry of a list, in the second entry of that one's list. */
static void test_places()
{
    static const etcs::bytes nested = of("A113140C40FFC6C04620028A002003C54000505A2445062FFFFFC0");
    auto sent = etcs::fields(kind::short_telegram, nested);
    auto places = etcs::places(kind::short_telegram, nested);
    EXPECT(sent && places && places->size() == 36);
    auto at = etcs::find(sent->fields, etcs::variable::NC_CDDIFF);
    EXPECT(at && (*places)[*at].packet == 1 && (*places)[*at].entry == 2 && (*places)[*at].inner == 2);
    EXPECT((*places)[9].packet == 0 && (*places)[10].packet == 1 && (*places)[10].entry == 0 && (*places)[33].packet == 2);
}

static void test_refusals()
{
    EXPECT(is_refused(etcs::check(kind::radio_message, refused).error()) && is_refused(etcs::show(kind::radio_message, refused).error()));
    EXPECT(is_refused(etcs::to_json(kind::radio_message, refused).error()) && is_refused(etcs::fields(kind::radio_message, refused).error()));
    EXPECT(is_refused(etcs::places(kind::radio_message, refused).error()));
    EXPECT(etcs::explain(kind::radio_message, refused) == sentence);
    auto before = etcs::fields_before(kind::radio_message, refused);
    EXPECT(before && before->size() == 1 && before->front().var == etcs::variable::NID_MESSAGE && before->front().number == 24);
    auto why = etcs::refusal(kind::radio_message, refused);
    EXPECT(why && is_refused(why->where) && why->bits == 11 && why->count == 10 && why->number == 11u);
    EXPECT(why->below == 10u && why->above == 13u && why->nid == 24u && !why->unfit && !why->room);
    EXPECT(why->cause == etcs::cause::spare && why->here == etcs::place::message_length);
    EXPECT(starves([] { etcs::explain(kind::radio_message, refused); }) && starves([] { etcs::fields_before(kind::radio_message, refused); }));
    left = 0;
    EXPECT(etcs::refusal(kind::radio_message, refused).has_value()); /* takes no memory */
    left = LONG_MAX;
    EXPECT(throws<std::invalid_argument>([] { etcs::check(static_cast<kind>(9), radio); }));
    EXPECT(throws<std::bad_variant_access>([] { etcs::check(kind::radio_message, refused).value(); }));
    EXPECT(etcs::check(kind::radio_message, refused).value_or(5) == 5 && etcs::check(kind::radio_message, radio).value_or(5) == 13);
    EXPECT(etcs::to_string(status::more) == "the bytes end inside an item" && etcs::check(kind::radio_message, {}).error().text() == "the bytes end inside an item");
}

static void test_writing()
{
    std::string_view line = R"({"kind":"radio","nid":24,"header":[["T_TRAIN",0],["M_ACK",2]]})";
    EXPECT(etcs::from_json(kind::radio_message, line).error().why == status::bad_json);
    auto why = etcs::explain_json(kind::radio_message, line);
    EXPECT(why && why->starts_with(".header[1]") && etcs::explain_json(kind::radio_message, "")->size() > 0);
    EXPECT(etcs::json_reason(kind::radio_message, line)->find("\"path\":\".header[1]") != std::string::npos);
    EXPECT(starves([&] { etcs::explain_json(kind::radio_message, line); }));
    auto sent = etcs::fields(kind::radio_message, of("18028000000000000000")).value().fields;
    EXPECT(etcs::find(sent, etcs::variable::L_MESSAGE) == 1u && etcs::find(sent, etcs::variable::L_MESSAGE, 2) == std::nullopt);
    EXPECT(etcs::bit_of(sent, 1) == 8 && etcs::find({}, etcs::variable::L_MESSAGE) == std::nullopt);
    auto changed = [&](etcs::field field) {
        auto other = sent;
        other[1] = field;
        return etcs::from_fields(kind::radio_message, other);
    };
    EXPECT(is_refused(changed({11, etcs::variable::L_MESSAGE, 10}).error()));
    EXPECT(changed({10, etcs::variable::M_ACK, 10}).error().why == status::bad_fields);
    EXPECT(changed({1024, etcs::variable::L_MESSAGE, 10}).error().why == status::bad_fields);
    EXPECT(changed({1023, etcs::variable::L_MESSAGE, 10}).error().why == status::more);
    EXPECT(etcs::from_fields(kind::radio_message, {}).error().why == status::more);
}

static void test_lines_and_meanings()
{
    EXPECT(etcs::line_bytes("12:00:03 0xA1, 0x13").value() == etcs::bytes{0xA1, 0x13});
    EXPECT(etcs::line_bytes("").error().why == status::empty_line && etcs::line_bytes("noon").error().why == status::no_digits);
    EXPECT(etcs::line_bytes("noon A1B").error().why == status::odd_digits && etcs::line_bytes("noon A1B").error().count == 3);
    EXPECT(etcs::line_front("12:00:03 0xA1, 0x13") == "12:00:03" && etcs::line_front("") == "" && etcs::line_front("A113") == "");
    EXPECT(etcs::line_front("\xEF\xBB\xBFnoon A113") == "noon" && etcs::line_front("# dead") == "#");
    EXPECT(starves([] { etcs::line_bytes("A113"); }));

    auto link = etcs::meaning(kind::short_telegram, etcs::variable::D_LINK, 1180, 0);
    EXPECT(link && link->name == "D_LINK" && link->text == "118.0 m");
    EXPECT(etcs::meaning(kind::short_telegram, etcs::variable::D_LINK, 1180)->text == "");
    EXPECT(etcs::meaning(kind::train_message, etcs::variable::NID_PACKET, 0)->text == "Position Report");
    EXPECT(!etcs::meaning(kind::radio_message, ETCS_VAR_COUNT, 0));
    EXPECT(etcs::variable_name(etcs::variable::M_VERSION_HEADER) == "M_VERSION" && etcs::variable_name(ETCS_VAR_COUNT) == "");
    EXPECT(starves([] { etcs::meaning(kind::short_telegram, etcs::variable::D_LINK, 1180, 0); }));
    EXPECT(etcs::version() == ETCS_VERSION || etcs::version() == ETCS_VERSION " unproved");

    std::string text(radio.begin(), radio.end());
    EXPECT(etcs::check(kind::radio_message, etcs::bytes_of(text)).value() == radio.size());
    EXPECT(etcs::check(kind::radio_message, etcs::bytes_of(std::as_bytes(std::span(radio)))).value() == radio.size());
}

/* The short telegram with these numbers. */
static etcs::telegram balise(std::uint64_t n_pig, std::uint64_t n_total, std::uint64_t m_dup = 0, std::uint64_t m_mcount = 255, std::uint64_t nid_bg = 1)
{
    auto sent = etcs::fields(kind::short_telegram, short_one).value().fields;
    auto set = [&](std::uint32_t var, std::uint64_t number) { sent[etcs::find(sent, var).value()].number = number; };
    set(etcs::variable::N_PIG, n_pig), set(etcs::variable::N_TOTAL, n_total), set(etcs::variable::M_DUP, m_dup);
    set(etcs::variable::M_MCOUNT, m_mcount), set(etcs::variable::NID_BG, nid_bg);
    return etcs::make_telegram(kind::short_telegram, etcs::from_fields(kind::short_telegram, sent).value());
}

static void test_groups()
{
    std::vector both{balise(1, 1), balise(0, 1)}, first{balise(0, 2)};
    auto group = etcs::assemble(both);
    EXPECT(group && group->is_complete && group->missing.none());
    group = etcs::assemble(first);
    EXPECT(group && !group->is_complete && group->missing == 0b110u);
    EXPECT(etcs::assemble({}) && !etcs::assemble({})->is_complete);
    auto clash = [](const etcs::telegram &other) {
        std::vector pair{balise(0, 1, 0, 4), other};
        auto why = etcs::assemble(pair).error();
        return why.count == 1 ? why.why : status::more;
    };
    EXPECT(clash(balise(3, 1)) == status::clash_position && clash(balise(1, 1, 1)) == status::clash_duplicate);
    EXPECT(clash(balise(1, 1, 0, 255, 2)) == status::clash_group && clash(balise(1, 2)) == status::clash_total);
    EXPECT(clash(balise(1, 1, 0, 5)) == status::clash_counter && clash(balise(0, 1, 1, 4)) == status::clash_differs);
    both[1].bytes[0] = 0xFF;
    auto why = etcs::assemble(both).error();
    EXPECT(why.why == status::refused && why.count == 1 && why.variable() == "M_VERSION");
    EXPECT(starves([&] { etcs::assemble(first); }));
    EXPECT(throws<std::invalid_argument>([] { etcs::make_telegram(kind::radio_message, radio); }));
    EXPECT(throws<std::invalid_argument>([] { etcs::make_telegram(kind::long_telegram, kept); }));
}

/* Items in pieces of each length, a refused bit, an end inside an item, and a caller that throws. */
static void test_reader()
{
    etcs::bytes all = radio;
    all.insert(all.end(), kept.begin(), kept.end());
    all.insert(all.end(), radio.begin(), radio.end());
    for (std::size_t size : {1u, 2u, 7u, 100u, 2000u}) {
        etcs::reader reader(kind::radio_message);
        std::vector<etcs::bytes> items;
        for (etcs::bytes_view rest = all; !rest.empty(); rest = rest.subspan(std::min(size, rest.size())))
            EXPECT(!reader.feed(rest.first(std::min(size, rest.size())), [&](etcs::bytes_view item) { items.emplace_back(item.begin(), item.end()); }));
        EXPECT(items == std::vector{radio, kept, radio} && !reader.end());
    }
    auto ignore = [](etcs::bytes_view) {};
    etcs::reader cut(kind::radio_message), wrong_one(kind::radio_message), unknown(static_cast<kind>(9)), starved(kind::radio_message);
    EXPECT(!cut.feed(etcs::bytes_view(radio).first(5), ignore) && cut.end()->why == status::more && cut.kept().size() == 5);
    auto why = wrong_one.feed(refused, ignore);
    EXPECT(why && is_refused(*why) && is_refused(*wrong_one.end()) && is_refused(*wrong_one.feed(radio, ignore)));
    EXPECT(etcs::explain(kind::radio_message, wrong_one.kept()) == sentence);
    EXPECT(throws<std::invalid_argument>([&] { unknown.feed(radio, ignore); }));
    etcs::bytes front = radio;
    front[1] = 0xFF; /* L_MESSAGE 1023 */
    EXPECT(starves([&] { starved.feed(front, ignore); }) && !starved.feed(front, ignore) && starved.end()->why == status::more);
    etcs::reader stopped(kind::radio_message);
    EXPECT(throws<int>([&] { stopped.feed(all, [](etcs::bytes_view) { throw 1; }); }) && !stopped.end());
}

static_assert(std::is_copy_constructible_v<etcs::result<std::string>> && std::is_nothrow_move_constructible_v<etcs::result<std::string>>);
static_assert(std::is_trivially_copyable_v<etcs::fault>);

int main()
{
    test_item(kind::radio_message, radio);
    test_item(kind::train_message, train);
    test_item(kind::short_telegram, short_one);
    test_item(kind::radio_message, kept);
    EXPECT(etcs::show(kind::radio_message, kept)->text.size() > 8192); /* longer than what is tried first */
    test_places();
    test_refusals();
    test_writing();
    test_lines_and_meanings();
    test_groups();
    test_reader();
    std::printf("etcs.hpp: %d checks, %d faults\n", count, wrong);
    return wrong ? 1 : 0;
}
