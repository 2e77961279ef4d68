"""Tries the header's traps from Python: traps.py HEADER-NUMBERS VERSION. See run."""

import pathlib
import struct
import sys

import gwirandol as gw

failures = 0


def expect(holds, what):
    global failures
    if not holds:
        print(f"not so from Python: {what}")
        failures += 1


def refusal(call, *arguments):
    """The refusal of a call; one of number 0 if it was accepted."""
    try:
        call(*arguments)
    except gw.Refused as refused:
        return refused
    return gw.Refused(gw.Refusal.ACCEPTED, 0)


def values(**changed):
    """Values of a sound trace, some of them changed."""
    sound = {gw.Attribute.DETAIL: gw.Level.LOW, gw.Attribute.ACCUMULATE: gw.Route.ACCUMULATE_IN_MSG,
             gw.Attribute.FORWARD: gw.Route.FORWARD_ALL, gw.Attribute.DELIVER: gw.Route.DELIVER_YES}
    return {**sound, **{gw.Attribute[name]: value for name, value in changed.items()}}


def trace(**changed):
    return gw.Trace.compose(values(**changed))


# An Activity group (8005) of one string, 3024, "python", a blank and a zero byte.
GROUP = struct.pack(">4I", 20, 16, 8005, 1) + struct.pack(">5I", 4, 28, 3024, 0, 8) + b"python \0"
ALL = gw.Option.REPORTS_ASKED | gw.Option.ACTIVITY_RECORDING | gw.Option.TRACE_ROUTE_MESSAGING
RECORDED, UNRECORDED = gw.Attribute.RECORDED_ACTIVITIES, gw.Attribute.UNRECORDED_ACTIVITIES
LOW = gw.Level.LOW


def numbers(file):
    """The module's numbers are the header's, as a C program has printed them."""
    lines = pathlib.Path(file).read_text().splitlines()
    header = {name: int(value) for name, value in map(str.split, lines)}
    prefixes = {gw.Refusal: "GW_REFUSED_", gw.Attribute: "GW_ATTR_", gw.Level: "GW_LEVEL_", gw.Route: "GW_MQROUTE_",
                gw.Option: "GW_OPTION_", gw.Field: "GW_FIELD_", gw.Decision: "GW_DECIDED_", gw.Feedback: "GW_MQFB_"}
    ours = {prefix + member.name: member.value for kind, prefix in prefixes.items() for member in kind}
    ours["GW_ACCEPTED"] = ours.pop("GW_REFUSED_ACCEPTED")
    ours.update({"GW_MQROUTE_DETAIL_" + level.name: level.value for level in gw.Level})
    ours.update({"GW_WORDS_BYTES": gw.WORDS_BYTES, "GW_LISTING_BYTES": gw.LISTING_BYTES, "GW_ATTRIBUTES": len(gw.Attribute),
                 "GW_FORMAT_BYTES": gw.FORMAT_BYTES, "GW_FIELDS": len(gw.Field)})
    ours.update({"GW_IBM_SHEET[%d]" % place: identifier for place, identifier in enumerate(gw.IBM_SHEET)})
    theirs = {name for name in header if name.startswith(tuple(prefixes.values()))}
    for name in sorted(set(ours) | theirs):
        expect(ours.get(name) == header.get(name), f"{name}: {ours.get(name)} here, {header.get(name)} in the header")
    return header["GW_VERSION"]


def positions():
    expect(trace(DETAIL=gw.Level.MEDIUM).values()[gw.Attribute.DETAIL] == 8, "a medium trace is composed")
    read = trace(MAX_ACTIVITIES=7, FORWARD=gw.Route.FORWARD_IF_SUPPORTED).values()
    expect(read == {**values(), gw.Attribute.MAX_ACTIVITIES: 7, gw.Attribute.FORWARD: 0x200,
                    **{counter: 0 for counter in (1, 2, 3)}}, "limit and forwarding have their positions")
    limited = trace(MAX_ACTIVITIES=1)
    limited.discontinuity()
    expect(refusal(limited.discontinuity).number == gw.Refusal.MAX_ACTIVITIES, "a limit of 1 admits one event")


def levels():
    for detail, level, counter in ((8, 2, RECORDED), (8, 8, RECORDED), (2, 8, UNRECORDED), (8, 32, UNRECORDED), (2, 0, RECORDED)):
        expect(trace(DETAIL=detail).activity(GROUP, level, ALL).counter == counter, f"detail {detail}, level {level}")


def options():
    plain, noisy = trace(), trace()
    same = plain.activity(GROUP, LOW, ALL) == noisy.activity(GROUP, LOW, 0xFFFFFFFF)
    expect(same, "beside the form an activity looks at three bits")
    expect(plain.message == noisy.message, "and leaves the same message")
    for alone in (0, gw.Option.REPORTS_ASKED, gw.Option.ACTIVITY_RECORDING):
        silent = trace().activity(GROUP, LOW, 0xFFFFFFF8 | alone)
        expect(silent == gw.Entered(UNRECORDED, False, b""), f"no other bit makes up for what bit {int(alone)} lacks")
    reported = trace().activity(GROUP, LOW, gw.Option.REPORTS_ASKED | gw.Option.ACTIVITY_RECORDING)
    expect(len(reported.report) == 36 + len(GROUP) and not reported.appended, "two bits report and do not append")
    if_supported = trace(FORWARD=gw.Route.FORWARD_IF_SUPPORTED, DELIVER=gw.Route.DELIVER_NO)
    expect(if_supported.forward(gw.Option.REMOTE_SUPPORTS) == gw.Decision.FORWARD, "forwarding looks at its bit")
    expect(refusal(if_supported.forward, 0xFFFFFFF7).number == gw.Refusal.NOT_FORWARDED, "and at no other")


def feedbacks():
    codes = {gw.Refusal.MAX_ACTIVITIES: 282, gw.Refusal.NOT_FORWARDED: 283, gw.Refusal.UNSUPPORTED_FORWARDING: 285,
             gw.Refusal.UNSUPPORTED_DELIVERY: 286}
    for number in [*range(40), 282, 2**32 - 1]:
        expect(gw.feedback(number) == codes.get(number, 0), f"the feedback of {number}")
    limited = trace(MAX_ACTIVITIES=1, ACCUMULATE=gw.Route.ACCUMULATE_AND_REPLY)
    limited.discontinuity()
    refused = refusal(limited.discontinuity)
    expect(refused.feedback == gw.Feedback.MAX_ACTIVITIES and refused.reply_owed, "the limit's feedback, and a reply is owed")


def in_words():
    expect(gw.words(0) == "accepted", "0 is accepted")
    expect(gw.words(19) == gw.words(2**32 - 1) == "no refusal has this number", "numbers that are no refusals")
    expect(len({gw.words(number) for number in range(20)}) == 20, "each refusal has words of its own")


def messages():
    """The other functions, once each."""
    some = trace()
    some.activity(GROUP, LOW, ALL)
    expect(gw.check(some.message) == 11, "the number of structures")
    expect(gw.tally(some.message)[20] == 2 and gw.tally(some.message)[3] == 8, "the tally")
    expect(gw.listing(some.message).splitlines()[-3:] == ["1 180 20 8005 16", "2 196 4 3024 28", "end 11"], "the listing")
    expect(gw.step(some.message, 180).next == 196, "one structure")
    expect(some.arrive() == gw.Decision.PUT, "arrival")
    expect(some.activity_group(0) == GROUP and some.activity_group(1) == b"", "Activity groups")
    expect(some.name(0, 3024) == b"python" and some.name(0, 3025, b"none \0 ") == b"none \0 ", "names")
    cut = refusal(gw.check, some.message[:100])
    expect((cut.number, cut.place) == (gw.Refusal.STRUCTURE, 100), "a refusal's place")
    expect(refusal(gw.check, b"").number == gw.Refusal.LENGTH, "no bytes at all")
    expect(refusal(gw.Trace.compose, values(), [1] * 8).number == gw.Refusal.SHEET, "a sheet that is none")


# What a sender says of its user data; and some that read like a structure.
EMBEDDING = gw.Embedding(273, 0xFFFFFFFF, b"MQSTR  \0", 0x80000001)
USER = struct.pack(">4I", 3, 16, 1234, 2) + b"!"


def embedded():
    """The same, embedded."""
    some = gw.Trace.compose(values(MAX_ACTIVITIES=2), embedding=EMBEDDING, user=USER)
    expect(some.message == b"EPH " + struct.pack(">4I", 1, 212, 273, 0xFFFFFFFF) + b"MQSTR  \0" + struct.pack(">I", 0x80000001)
           + trace(MAX_ACTIVITIES=2).message + USER, "header, PCF part and user data")
    expect(some.activity(GROUP, LOW, ALL).report == trace().activity(GROUP, LOW, ALL).report, "a report is plain")
    some.discontinuity()
    expect(some.embedding() == EMBEDDING and some.user_data() == USER, "the user data come through unharmed")
    expect(some.values()[RECORDED] == 1 and some.values()[gw.Attribute.DISCONTINUITY_COUNT] == 1, "the values")
    expect(some.forward() == gw.Decision.FORWARD and some.arrive() == gw.Decision.PUT, "the decisions")
    expect(refusal(some.discontinuity).number == gw.Refusal.MAX_ACTIVITIES, "the limit")
    expect(some.activity_group(0) == GROUP and some.name(0, 3024) == b"python", "groups and names")
    expect(gw.check(some.message, embedded=True) == 11, "no structure in user data")
    expect(gw.tally(some.message, embedded=True)[3] == 8, "nor one that is counted")
    expect(gw.listing(some.message, embedded=True).splitlines()[-3:] == ["1 212 20 8005 16", "2 228 4 3024 28", "end 11"], "places")
    expect(gw.step(some.message, 212, embedded=True).next == 228, "one structure")
    expect(refusal(gw.step, some.message, 256, 1, True).number == gw.Refusal.STRUCTURE, "and none behind the PCF part")
    expect(gw.Trace.compose(values(), embedding=EMBEDDING).user_data() == trace().user_data() == b"", "none, and plain none")
    expect(trace().embedding() == gw.Embedding(), "nor anything that is said of them")


def forms():
    """A message is what its caller says."""
    plain, around = trace(), gw.Trace.compose(values(), embedding=EMBEDDING, user=USER)
    for call in (gw.check, gw.tally, gw.listing, lambda message, embedded: gw.Trace(message, embedded=embedded).values()):
        expect(refusal(call, plain.message, True).number == gw.Refusal.EMBEDDED_HEADER, "plain is not embedded")
        expect(refusal(call, around.message, False).number == gw.Refusal.HEADER, "embedded is not plain")
        expect(refusal(call, around.message[:67], True).number == gw.Refusal.LENGTH, "67 bytes are too few")
        expect(refusal(call, around.message[:211], True).number == gw.Refusal.EMBEDDED_HEADER, "the PCF part is in the message")
    expect(gw.Trace(around.message, embedded=True).user_data() == USER, "taken as it is")


def main():
    version = numbers(sys.argv[1])
    major, minor, patch = map(int, sys.argv[2].split("."))
    expect(gw.version() == version == major * 1000000 + minor * 1000 + patch, "library, header and pkg-config have one version")
    for part in (positions, levels, options, feedbacks, in_words, messages, embedded, forms):
        part()
    sys.exit(failures != 0)


main()
