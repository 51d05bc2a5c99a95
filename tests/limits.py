"""Cases at the limits of the format: what stands on standard input, and what the program writes.

A maker gives the two texts, as those of large.py do, which lists them. Where a journal is short to
say it is written down here; else tests/model.py gives it.
"""

from tests import model

HEAD = "gpu-script 1\n"
FLUSHES_AT_MOST = 100_000
ACTIONS_AT_MOST = 1_000_000
SPAN_AT_MOST = 65_536
FETCHED_AT_MOST = 1_048_576


def lines(*items: str) -> str:
    return "".join(item + "\n" for item in items)


def done(stream: int, entries: int = 0, token: int = 0, words: int = 0) -> str:
    return (
        f"stream {stream} done entries {entries} release 0 token {token} words {words} errors 0 0 "
        "0\n"
    )


def flushes_of_one() -> tuple[str, str]:
    """As many flushes as there may be, of one stream; each is empty."""
    script = HEAD + "stream 1 normal 16\n" + "flush 0\n" * FLUSHES_AT_MOST
    orders = "".join(f"order 1 {number} {number - 1}\n" for number in range(1, FLUSHES_AT_MOST + 1))
    finishes = "".join(f"finish 1 {number}\n" for number in range(1, FLUSHES_AT_MOST + 1))
    return script, orders + finishes + done(1)


def flushes_of_sixteen() -> tuple[str, str]:
    """As many flushes as there may be, of sixteen streams of all three priorities."""
    each, streams = FLUSHES_AT_MOST // 16, range(1, 17)
    priorities = [("high", "normal", "low")[stream % 3] for stream in streams]
    script = HEAD + "".join(f"stream {stream} {priority} 16\n" + "flush 0\n" * each
                            for stream, priority in zip(streams, priorities))
    numbers = [(stream, (stream - 1) * each + place + 1, place) for stream in streams
               for place in range(each)]
    text = ["order %d %d %d\n" % number for number in numbers]
    for priority in ("high", "normal", "low"):
        text += [f"finish {stream} {order}\n"
                 for stream, order, _ in numbers if priorities[stream - 1] == priority]
    return script, "".join(text) + "".join(done(stream) for stream in streams)


def flush_past_the_limit() -> tuple[str, str]:
    return flushes_of_one()[0] + "flush 0\n", ""


def most_actions() -> tuple[str, str]:
    """The most actions there may be: values are put until the last action flushes one SetToken."""
    values = ["200002", *(f"{place:x}" for place in range(1, 4000))]
    puts = (
        ("put 0 " + " ".join(values) + "\n") * (ACTIONS_AT_MOST // 4000 - 1)
        + "put 0 "
        + " ".join(values[:-1])
        + "\n"
    )
    script = HEAD + "stream 1 normal 4096\n" + puts + "flush 2\n"
    output = lines(f"order 1 1 {ACTIONS_AT_MOST - 1}", "step 1 0:00200002 1:00000001", "finish 1 1")
    return script, output + done(1, entries=2, token=1, words=2)


def action_past_the_limit() -> tuple[str, str]:
    return most_actions()[0] + "finish\n", ""


def widest_spans() -> tuple[str, str]:
    """A memory and a result memory of the most words there may be, all copied through a bucket."""
    values = " ".join(f"{(2654435761 * place + 1) % 2**32:x}" for place in range(SPAN_AT_MOST))
    size = f"{4 * SPAN_AT_MOST:x}"
    script = HEAD + lines("stream 1 normal 64", f"memory 15 {SPAN_AT_MOST}",
                          f"results 15 {SPAN_AT_MOST}",
                          f"fill 15 0 {values}",
                          f"put 0 400003 0 {size} 600006 0 0 {size} f 0 c00006 0 0 {size} f 0",
                          "flush 15", "finish", "dump 15 0", "dump 15 1",
                          f"dump 15 {SPAN_AT_MOST - 1}")
    return script, model.answer(["run"], script.encode())[1]


def largest_command() -> tuple[str, str]:
    """A command of as many entries as follow in a ring, and a Noop of as many.

    The dump reads back the result of the first one.
    """
    entries = 4096 - 3
    size = 4 * (entries - 4)
    values = " ".join(f"{(2654435761 * place + 7) % 2**32:x}" for place in range(entries - 4))
    script = HEAD + lines("stream 1 normal 4096", f"results 0 {entries - 4}",
                          f"put 0 400003 0 {size:x}", "flush 3", "finish",
                          f"put 3 {(4 << 21) + entries:x} 0 0 {size:x} {values}", "flush 0",
                          "finish", f"put 0 c00006 0 0 {size:x} 0 0", "flush 6", "dump 0 0",
                          f"dump 0 {entries - 5}",
                          f"put 6 {4096 - 6:x}", "flush 0")
    return script, model.answer(["run"], script.encode())[1]


def most_events() -> tuple[str, str]:
    """Two streams that fetch as many words as they may, one a command: over two million events."""
    flushes = FETCHED_AT_MOST // 2048
    puts = [2048 if flush % 2 == 0 else 0 for flush in range(flushes)]
    plan = lines("put 0" + " 1" * 4096, *(f"flush {put}" for put in puts))
    script = HEAD + "".join(f"stream {stream} normal 4096\n" + plan for stream in (1, 2))
    text = [f"order {stream} {(stream - 1) * flushes + flush + 1} {4096 + flush}\n"
            for stream in (1, 2) for flush in range(flushes)]
    for stream in (1, 2):
        halves = [
            "".join(f"step {stream} {place}:00000001\n" for place in range(start, start + 2048))
            for start in (0, 2048)
        ]
        for flush in range(flushes):
            text += [halves[flush % 2], f"finish {stream} {(stream - 1) * flushes + flush + 1}\n"]
    return script, "".join(text) + "".join(
        done(stream, FETCHED_AT_MOST, words=FETCHED_AT_MOST) for stream in (1, 2)
    )


def verify_late_fault() -> tuple[str, str]:
    """A journal of 200,000 events whose last but one finishes the number after the due one."""
    script, output = flushes_of_one()
    late, wrong = (f"finish 1 {number}\n" for number in (FLUSHES_AT_MOST - 1, FLUSHES_AT_MOST))
    return script + "journal\n" + output.replace(late, wrong, 1), ""


def generated_2000_1() -> tuple[str, str]:
    return "", model.generate(2000, 1)


MAKERS = {maker.__name__: maker for maker in (
    flushes_of_one, flushes_of_sixteen, flush_past_the_limit, most_actions, action_past_the_limit,
    widest_spans,
    largest_command, most_events, verify_late_fault, generated_2000_1)}
