// Tries the header's traps from C++: traps VERSION, the version that pkg-config says. See run.
#include <gwirandol.h>

#include <array>
#include <iostream>
#include <map>
#include <optional>
#include <set>
#include <string>
#include <vector>

namespace {

int failures = 0;

void expect(bool holds, const std::string &what)
{
    if (!holds) {
        std::cout << "not so from C++: " << what << '\n';
        failures++;
    }
}

using Eight = std::array<uint32_t, GW_ATTRIBUTES>;

// What an embedded header says of the user data.
struct Embedding {
    std::array<uint32_t, GW_FIELDS> fields;
    std::array<uint8_t, GW_FORMAT_BYTES> format;
};

constexpr Embedding embedding = {{273, 0xFFFFFFFF, 0x80000001}, {'M', 'Q', 'S', 'T', 'R', ' ', ' ', 0xFF}};

constexpr Eight sheet = {GW_IBM_SHEET};
constexpr uint32_t three = GW_OPTION_REPORTS_ASKED | GW_OPTION_ACTIVITY_RECORDING | GW_OPTION_TRACE_ROUTE_MESSAGING;

// An Activity group (8005) of one string, 3024, "C++" and a blank.
const std::vector<uint8_t> group = {0, 0, 0, 20, 0, 0,    0,    16, 0, 0, 0x1f, 0x45, 0, 0, 0, 1,   0,   0,   0,   4,
                                    0, 0, 0, 24, 0, 0, 0x0b, 0xd0, 0, 0, 0,    0,    0, 0, 0, 4, 'C', '+', '+', ' '};

// A trace in a buffer that it can grow in.
class Trace {
public:
    // sound but for the one value
    Trace(gw_attribute attribute, uint32_t value)
    {
        Eight values{};
        values[GW_ATTR_DETAIL] = GW_LEVEL_LOW;
        values[GW_ATTR_ACCUMULATE] = GW_MQROUTE_ACCUMULATE_IN_MSG;
        values[GW_ATTR_FORWARD] = GW_MQROUTE_FORWARD_ALL;
        values[GW_ATTR_DELIVER] = GW_MQROUTE_DELIVER_NO;
        values[attribute] = value;
        gw_answer answer = gw_compose_plain(sheet.data(), values.data(), buffer.data(), buffer.size());
        length = gw_number(answer) == GW_ACCEPTED ? gw_value(answer) : 0;
    }

    // embedded, with user data
    explicit Trace(const std::string &user) : form(GW_OPTION_EMBEDDED)
    {
        constexpr Eight values = {GW_LEVEL_LOW, 0, 0, 0, 0, GW_MQROUTE_ACCUMULATE_IN_MSG, GW_MQROUTE_FORWARD_ALL,
                                  GW_MQROUTE_DELIVER_NO};
        gw_answer answer = gw_compose(sheet.data(), values.data(), form, embedding.fields.data(), embedding.format.data(),
                                      reinterpret_cast<const uint8_t *>(user.data()), user.size(), buffer.data(), buffer.size());
        length = gw_number(answer) == GW_ACCEPTED ? gw_value(answer) : 0;
    }

    std::optional<Eight> read() const
    {
        Eight values{};
        Embedding said{};
        return user_data(values, said) ? std::optional(values) : std::nullopt;
    }

    // the user data, and what the message says beside them
    std::optional<std::string> user_data(Eight &values, Embedding &said) const
    {
        gw_answer answer = gw_read(buffer.data(), buffer.size(), length, sheet.data(), form, values.data(), said.fields.data(),
                                   said.format.data());
        if (gw_number(answer) != GW_ACCEPTED) {
            return std::nullopt;
        }
        auto all = bytes();
        return std::string(all.begin() + static_cast<std::ptrdiff_t>(gw_value(answer)), all.end());
    }

    gw_answer check(uint32_t options) const
    {
        return gw_check(buffer.data(), buffer.size(), length, options);
    }

    gw_done activity(uint32_t options, uint32_t level)
    {
        gw_done done = {99, 99, 99, 99};
        gw_answer answer = gw_activity(buffer.data(), buffer.size(), length, sheet.data(), options | form, level, group.data(),
                                       group.size(), report.data(), report.size(), &done);
        if (gw_number(answer) == GW_ACCEPTED) {
            length = gw_value(answer);
        }
        return done;
    }

    gw_answer forward(uint32_t options) const
    {
        return gw_forward(buffer.data(), buffer.size(), length, sheet.data(), options | form);
    }

    std::vector<uint8_t> bytes() const
    {
        return {buffer.begin(), buffer.begin() + static_cast<std::ptrdiff_t>(length)};
    }

private:
    std::vector<uint8_t> buffer = std::vector<uint8_t>(1000);
    std::vector<uint8_t> report = std::vector<uint8_t>(1000);
    size_t length = 0;
    uint32_t form = 0;
};

void positions()
{
    auto medium = Trace(GW_ATTR_DETAIL, GW_LEVEL_MEDIUM).read();
    expect(medium && (*medium)[GW_ATTR_DETAIL] == 8, "a medium trace is composed");
    auto limited = Trace(GW_ATTR_MAX_ACTIVITIES, 7).read();
    expect(limited && (*limited)[4] == 7, "the limit has its position");
    auto supported = Trace(GW_ATTR_FORWARD, GW_MQROUTE_FORWARD_IF_SUPPORTED).read();
    expect(supported && (*supported)[6] == 0x200, "forwarding has its position");
}

void levels()
{
    struct Case {
        uint32_t detail, level, counter;
    };
    for (auto [detail, level, counter] : {Case{8, 2, GW_ATTR_RECORDED_ACTIVITIES}, Case{8, 8, GW_ATTR_RECORDED_ACTIVITIES},
                                          Case{2, 8, GW_ATTR_UNRECORDED_ACTIVITIES}, Case{8, 32, GW_ATTR_UNRECORDED_ACTIVITIES},
                                          Case{2, 0, GW_ATTR_RECORDED_ACTIVITIES}}) {
        expect(Trace(GW_ATTR_DETAIL, detail).activity(three, level).counter == counter,
               "detail " + std::to_string(detail) + ", level " + std::to_string(level));
    }
}

void options()
{
    constexpr uint32_t others = ~(three | GW_OPTION_EMBEDDED);
    Trace plain(GW_ATTR_MAX_ACTIVITIES, 0), noisy(GW_ATTR_MAX_ACTIVITIES, 0);
    gw_done done = plain.activity(three, GW_LEVEL_LOW);
    expect(done.appended == 1 && done.report_length == 36 + group.size(), "three bits append and report");
    noisy.activity(others | three, GW_LEVEL_LOW);
    expect(plain.bytes() == noisy.bytes(), "beside the form an activity looks at three bits");
    for (uint32_t alone : std::vector<uint32_t>{0, GW_OPTION_REPORTS_ASKED, GW_OPTION_ACTIVITY_RECORDING}) {
        Trace silent(GW_ATTR_MAX_ACTIVITIES, 0);
        uint64_t counter = silent.activity(others | alone, GW_LEVEL_LOW).counter;
        expect(counter == GW_ATTR_UNRECORDED_ACTIVITIES, "no other bit makes up for it");
    }
    Trace supported(GW_ATTR_FORWARD, GW_MQROUTE_FORWARD_IF_SUPPORTED);
    expect(gw_value(supported.forward(GW_OPTION_REMOTE_SUPPORTS)) == GW_DECIDED_FORWARD, "forwarding looks at its bit");
    uint32_t silent = others & ~uint32_t{GW_OPTION_REMOTE_SUPPORTS};
    expect(gw_number(supported.forward(silent)) == GW_REFUSED_NOT_FORWARDED, "and at no other");
}

void embedded()
{
    for (const std::string &user : {std::string(), std::string("!"), std::string("he\0llo", 6), std::string(200, 'x')}) {
        Trace trace(user);
        Eight values{};
        Embedding said{};
        expect(trace.bytes().size() == 212 + user.size() && trace.user_data(values, said) == user, "the user data are there");
        expect(said.fields == embedding.fields && said.format == embedding.format, "and what is said of them");
        expect(trace.activity(three, GW_LEVEL_LOW).appended == 1 && trace.user_data(values, said) == user, "they move unharmed");
        expect(values[GW_ATTR_RECORDED_ACTIVITIES] == 1, "and the activity is counted");
        expect(trace.check(GW_OPTION_EMBEDDED) == 11 * 32 && trace.check(0) == GW_REFUSED_HEADER, "what is embedded is not plain");
    }
    Trace plain(GW_ATTR_MAX_ACTIVITIES, 0);
    expect(plain.check(0) == 9 * 32 && plain.check(GW_OPTION_EMBEDDED) == GW_REFUSED_EMBEDDED_HEADER, "nor plain embedded");
}

void feedbacks()
{
    static_assert(GW_MQFB_MAX_ACTIVITIES == 282 && GW_MQFB_NOT_FORWARDED == 283 && GW_MQFB_UNSUPPORTED_FORWARDING == 285
                  && GW_MQFB_UNSUPPORTED_DELIVERY == 286);
    const std::map<uint32_t, uint32_t> codes = {{GW_REFUSED_MAX_ACTIVITIES, GW_MQFB_MAX_ACTIVITIES},
                                                {GW_REFUSED_NOT_FORWARDED, GW_MQFB_NOT_FORWARDED},
                                                {GW_REFUSED_UNSUPPORTED_FORWARDING, GW_MQFB_UNSUPPORTED_FORWARDING},
                                                {GW_REFUSED_UNSUPPORTED_DELIVERY, GW_MQFB_UNSUPPORTED_DELIVERY}};
    for (uint32_t number = 0; number < 40; number++) {
        auto code = codes.find(number);
        expect(gw_feedback(number) == (code == codes.end() ? 0 : code->second), "the feedback of " + std::to_string(number));
    }
}

void words()
{
    expect(std::string(gw_in_words(GW_ACCEPTED).text) == "accepted", "0 is accepted");
    std::set<std::string> all;
    for (uint32_t number = 0; number <= 19; number++) {
        std::array<char, GW_WORDS_BYTES> text{};
        all.emplace(text.data(), gw_words(number, text.data()));
    }
    expect(all.size() == 20 && all.count("no refusal has this number") == 1, "each refusal has words of its own");
}

} // namespace

int main(int argc, char **argv)
{
    positions();
    levels();
    options();
    embedded();
    feedbacks();
    words();
    expect(gw_version() == GW_VERSION, "library and header have one version");
    expect(argc > 1 && std::string(argv[1]) == GW_VERSION_TEXT, "and pkg-config has it");
    return failures != 0;
}
