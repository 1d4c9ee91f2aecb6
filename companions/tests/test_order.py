"""Orders of lines in which searches end."""

import random

import crnt_tools as ct
import support
from crnt_tools import order


def same_network(one, other):
    """The texts spell the same reactions, whatever the order."""

    def reactions(text):
        network = ct.Network.of_text(text)
        ends = [frozenset(it.terms) for it in network.complexes]
        return {(ends[it.reactant - 1], ends[it.product - 1]) for it in network.reactions}

    return reactions(one) == reactions(other)


def decided(text, **flags):
    """Whether an order was found in which no line is open, and whether its text is that network and has that report."""
    found = order.order(text, **flags)
    again = ct.report(order.as_text(found, "x"))
    is_sound = same_network(text, found.best.text) and str(again) == str(found.best.report)
    return found.best.report.open_count == 0, is_sound, found


def test_chains():
    """Phosphorylation chains whose lines are shuffled."""
    for sites in range(7, 20):
        is_decided, is_sound, found = decided(support.shuffled_chain(sites, sites))
        yield f"{sites} sites", is_decided and is_sound, [str(trial) for trial in found.trials]


def long_chains():
    """All chains of 7 to 19 sites in 20 orders each."""
    for sites in range(7, 20):
        for seed in range(20):
            is_decided, is_sound, found = decided(support.shuffled_chain(sites, 1000 + seed))
            yield f"{sites} sites, order {seed}", is_decided and is_sound, [str(trial) for trial in found.trials]


def open_as_written(count, seed):
    """Random networks that are open as written."""
    while count:
        seed += 1
        text = support.large_random_text(seed)
        if ct.report(text).open_count:
            count -= 1
            yield text


def test_random_networks():
    done = 0
    for number, text in enumerate(open_as_written(12, 5000)):
        is_decided, is_sound, found = decided(text)
        done += is_decided
        yield f"network {number}: the same network", is_sound, text
    yield "at least half are decided", done >= 6, done


def long_random_networks():
    done, tried = 0, 0
    for number, text in enumerate(open_as_written(500, 10_000)):
        is_decided, is_sound, found = decided(text)
        done, tried = done + is_decided, tried + len(found.trials)
        yield f"network {number}: the same network", is_sound, text
    print(f"order: of 500 random networks that are open as written {done} are decided, in {tried} trials")
    yield "at least half are decided", done >= 250, done


def test_what_stays():
    text = "# a head\n\nE + S0 <-> C1  # bind\nC1 -> E + S1 # turn\n"
    found = order.order(text)
    yield "a text with no open line stays as it is", found.best.text == text and len(found.trials) == 1
    text = f"# a head\n{support.shuffled_chain(9, 3)}"
    lines = [f"{line}  # line {k}" if "->" in line else line for k, line in enumerate(text.splitlines())]
    found = order.order("\n".join(lines) + "\n")
    yield "comments stay with their lines", all(
        same_network(line.partition("#")[0], lines[int(line.rsplit(" ", 1)[1])].partition("#")[0])
        for line in found.best.text.splitlines() if not line.startswith("#"))
    yield "the head stays", found.best.text.startswith("# a head\n")
    two = order.lines_of(ct.Network.of_text("A -> B\nB -> A\n"), "A -> B  # one\nB -> A  # two\nA -> B\n")
    yield "both comments of a pair stay", [line.text({}) for line in two] == ["A <-> B  # one; two"], two
    wide = "".join(f"X{k} -> 99X{k + 1}\n" for k in range(1, 11))
    found = order.order(wide)
    yield "no order helps what is wide", len(found.trials) == 1 and found.best.report.open_count > 0
    yield "it says so", "as written" in order.as_text(found, "wide.crn")


def test_what_was_tried():
    text = support.shuffled_chain(12, 1)
    found = order.order(text)
    shown = order.as_text(found, "chain.crn")
    yield "all trials are said", all(f"# tried: {trial}\n" in shown for trial in found.trials) and len(found.trials) > 1
    yield "the report is shown", all(f"# {line}\n" in shown for line in str(found.best.report).splitlines())
    again = order.order(text)
    yield "the same seed gives the same", order.as_text(again, "chain.crn") == shown
    none = order.order(support.large_random_text(1229), budget=5, restarts=3)
    yield "restarts are as many as said", sum("restart" in trial.order for trial in none.trials) in (0, 3)


def test_arrangements():
    """Any order of the species gives the same network."""
    for path in support.examples():
        text = path.read_text("utf-8")
        report = ct.report(text)
        lines, names = order.lines_of(report.network, text), list(report.species)
        for seed in range(3):
            random.Random(seed).shuffle(names)
            made = order.arranged(lines, {name: place for place, name in enumerate(names)})
            yield f"{path.name}, {seed}", same_network(text, made), made
