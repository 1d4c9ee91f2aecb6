"""Network texts and documents to measure `crnt` on, and random and damaged ones to try it on."""

import itertools
import random
import string
from pathlib import Path

EXAMPLES = Path(__file__).resolve().parent.parent / "examples" / "networks"
MAX_TEXT = 2_097_152
MAX_BUDGET = 100_000


def repeated(line, head=""):
    """The line over and over, after the head, up to the limit."""
    return head + line * ((MAX_TEXT - len(head)) // len(line))


def near_limits():
    """60 species, 160 complexes of 30 species each with amounts up to 99, and 240 reactions."""
    complexes = [" + ".join(f"{1 + (7 * c + s) % 99}S{(c + s) % 60}" for s in range(30)) for c in range(160)]
    steps = [(c, (c + 1) % 160) for c in range(160)] + [(c, (c + 7) % 160) for c in range(80)]
    return "".join(f"{complexes[y]} -> {complexes[z]}\n" for y, z in steps)


def last_place():
    """Complexes that agree in 39 species, and the last reaction over and over up to the limit."""
    prefix = "+".join(f"S{i}" for i in range(1, 40))
    lines = [f"{prefix}+{n}S40->{prefix}+{n + 1}S40\n" for n in range(1, 99)]
    return repeated(lines[-1], "".join(lines))


def short_names(limit):
    """As many different names as can be joined in so many bytes, the shortest first."""
    letters = string.ascii_letters + "_"
    names, size = [], -1
    for length in itertools.count():
        for first, *rest in itertools.product(letters, *[letters + string.digits] * length):
            size += length + 2
            if size > limit:
                return names
            names.append(first + "".join(rest))


def joined_shuffled(names, seed=1):
    """The names joined by plus signs, in an order that has nothing to do with theirs."""
    return "+".join(random.Random(seed).sample(names, len(names)))


def cases():
    """Pairs of a name and a text."""
    side = "+".join(f"S{i}" for i in range(1, 41))
    names = "+".join(f"x{i}" for i in range(120_000))
    many = "+".join(f"x{i}" for i in range(260_000))
    pairs = [f"X{i} -> X{j}\n" for i in range(12) for j in range(12) if i != j]
    return [
        ("one reaction", "A -> B\n"),
        ("120 different lines, 12 species", "".join(pairs[:120])),
        ("240 reactions near all limits", near_limits()),
        ("empty lines", "A -> B\n" + "\n" * (MAX_TEXT - 7)),
        ("empty comments", repeated("#\n", "A -> B\n")),
        ("comments of 20 bytes", repeated("# " + "c" * 18 + "\n", "A -> B\n")),
        ("one comment", "A -> B\n#" + "c" * (MAX_TEXT - 8)),
        ("comments of hashes", repeated("#" * 60 + "\n", "A -> B\n")),
        ("blanks", "A -> B\n" + " " * (MAX_TEXT - 7)),
        ("digits before a name", "1" * (MAX_TEXT - 5) + "A->B\n"),
        ("zeros before a number and a name", "0" * (MAX_TEXT - 6) + "7A->B\n"),
        ("one name", "A" * (MAX_TEXT - 4) + "->B\n"),
        ("one short line repeated", repeated("A -> B\n")),
        ("one short line without blanks repeated", repeated("A->B\n")),
        ("one line of both ways repeated", repeated("A + B <-> 2C\n")),
        ("one line of long names repeated", repeated("a_name_of_twenty_byte + another_name_of_a_species -> the_name_of_the_product\n")),
        ("one line of 40 species repeated", repeated(f"{side} -> 0\n")),
        ("one line of 40 species on both sides repeated", repeated(f"{side} -> 2{side}\n")),
        ("99 complexes of 40 species that differ in the last one, the last line repeated", last_place()),
        ("one chain of 699,048 arrows", "A" + "->B->A" * ((MAX_TEXT - 2) // 6) + "\n"),
        ("one chain of 524,286 arrows both ways", "A" + "<->B<->A" * ((MAX_TEXT - 2) // 8) + "\n"),
        ("chains of 5 arrows repeated", repeated("A -> B -> C <-> D <- E -> A\n")),
        ("one side of 1,048,572 terms of one name", "+".join(["A"] * 1_048_572) + "->B\n"),
        ("one side of 1,048,572 terms and a stray mark at its end", "+".join(["A"] * 1_048_571) + "->B!\n"),
        ("one side of 260,000 names in order", f"{many} -> 0\n"),
        ("one line, the same 120,000 names on both sides", f"{names} -> {names}\n"),
        ("one side of as many different names as there is room for", joined_shuffled(short_names(MAX_TEXT - 4)) + "->0\n"),
        ("as many names as there is room for twice, on both sides",
         "->".join(joined_shuffled(short_names(MAX_TEXT // 2 - 2), seed) for seed in (1, 2)) + "\n"),
        ("as many names as there is room for 4 times, each twice on both sides",
         "->".join(joined_shuffled(2 * short_names(MAX_TEXT // 4 - 2), seed) for seed in (1, 2)) + "\n"),
        ("as many names as there is room for 198 times, each 99 times on both sides",
         "->".join(joined_shuffled(99 * short_names(MAX_TEXT // 198 - 2), seed) for seed in (1, 2)) + "\n"),
    ]


def random_reversible(species=40, lines=60):
    """So many lines `A + B <-> C` of random species."""
    state, text = 1, ""
    for _ in range(lines):
        numbers = []
        for _ in range(3):
            state = (state * 6_364_136_223_846_793_005 + 1_442_695_040_888_963_407) % 2**64
            numbers.append((state >> 33) % species)
        text += "S{} + S{} <-> S{}\n".format(*numbers)
    return text


def random_directed(species=40, complexes=80, reactions=120, seed=1):
    """Reactions between random complexes of two species or three, most of them without a reverse."""
    dice = random.Random(seed)
    sides = [" + ".join(f"S{s}" for s in dice.sample(range(species), dice.choice([2, 3]))) for _ in range(complexes)]
    return "".join("{} -> {}\n".format(*dice.sample(sides, 2)) for _ in range(reactions))


def futile(sites):
    """The futile cycle of so many sites: a kinase adds a phosphate at each, and a phosphatase takes it off again."""
    lines = [f"S{i} + K <-> KS{i} -> S{i + 1} + K\nS{i + 1} + F <-> FS{i} -> S{i} + F\n" for i in range(sites)]
    return "".join(lines)


def futile_by_steps(sites):
    """The same cycle, all steps of the kinase first, and then those of the phosphatase from the last site down."""
    ups = [f"S{i} + K <-> KS{i}\nKS{i} -> S{i + 1} + K\n" for i in range(sites)]
    downs = [f"S{i} + F <-> FS{i}\nFS{i} -> S{i - 1} + F\n" for i in range(sites, 0, -1)]
    return "".join(ups + downs)


def dense(species=34, reactions=67, seed=1):
    """Reactions between random sides of two species with amounts up to 3: exchanges of their matrix meet large entries."""
    dice = random.Random(seed)

    def side():
        return " + ".join(f"{dice.randint(1, 3)}S{s}" for s in sorted(dice.sample(range(species), 2)))

    return "".join(f"{side()} -> {side()}\n" for _ in range(reactions))


def copies(count):
    """So many copies of a network of two chains, line by line, so that a search takes their species in turns."""
    lines = ["A{0} + B{0} <-> C{0}\n", "C{0} <-> D{0}\n", "D{0} <-> A{0}\n"]
    return "".join(line.format(copy) for line in lines for copy in range(count))


def with_pairs(count, lines):
    """So many reactions `A + D <-> E` with a D and an E of their own, and then these lines."""
    return "".join(f"A + D{i} <-> E{i}\n" for i in range(1, count + 1)) + lines


def without_signal(count):
    """So many pairs and a chain in which A makes more of itself: neither its confluence vector nor the negative has a signal."""
    return with_pairs(count, "A <-> 2A <-> 3A\n")


def negative_signal(count):
    """So many pairs and Schlögl's network: its confluence vector has no signal, but the negative has one."""
    return with_pairs(count, "2A <-> 3A\nA <-> 0\n")


def searches():
    """Rows of a name, a text that spells a network whose searches are long, whether it is certified, and the budget."""
    return [
        ("futile6", futile_by_steps(6), False, MAX_BUDGET),
        ("futile9", futile_by_steps(9), False, MAX_BUDGET),
        ("rand40", random_reversible(), False, MAX_BUDGET),
        ("dense", dense(), False, MAX_BUDGET),
        ("copies4", copies(4), True, MAX_BUDGET),
        ("signal8, budget 20,000", without_signal(8), True, 20_000),
        ("signal8", without_signal(8), True, MAX_BUDGET),
        ("signal9", without_signal(9), True, MAX_BUDGET),
        ("negative8", negative_signal(8), True, MAX_BUDGET),
    ]


def growth():
    """The same of the futile cycle from one site to twelve, whose last network has 39 species and 72 reactions."""
    return [(f"futile cycle, {sites} site{'s' * (sites > 1)}", futile(sites), True, MAX_BUDGET) for sites in range(1, 13)]


def random_conservative(seed, arrows, species=40, reactions=60):
    """Reactions between random sides of one or two species and sides of the same weight, where each species has one from 1 to 3."""
    dice = random.Random(seed)
    weights, lines = [dice.randint(1, 3) for _ in range(species)], set()
    while len(lines) < reactions:
        left, right = [dice.randrange(species) for _ in range(dice.randint(1, 2))], []
        total = sum(weights[s] for s in left)
        for _ in range(20):
            s = dice.randrange(species)
            if sum(weights[t] for t in [*right, s]) <= total:
                right.append(s)
        if sum(weights[s] for s in right) == total and sorted(left) != sorted(right):
            sides = [" + ".join(f"{side.count(s) if side.count(s) > 1 else ''}S{s}" for s in sorted(set(side))) for side in (left, right)]
            lines.add(f"{sides[0]} {dice.choice(arrows)} {sides[1]}\n")
    return "".join(sorted(lines))


def conservative():
    """Pairs of a name and a text that spells a conservative network, to look for siphons in."""
    cascade = (EXAMPLES / "mapk_cascade.crn").read_text("utf-8")
    return [
        *((f"futile cycle, {sites} site{'s' * (sites > 1)}", futile(sites)) for sites in range(1, 16)),
        ("MAPK cascade", cascade),
        *((f"random, 40 species, seed {seed}", random_conservative(seed, ["->", "<->"])) for seed in range(1, 4)),
        *((f"random reversible, 40 species, seed {seed}", random_conservative(seed, ["<->"], reactions=20)) for seed in range(1, 4)),
    ]


LITERATURE = ["envz_ompr", "hydrogen_bromine", "mapk_cascade", "proofreading", "shinar_feinberg", "two_site_futile_cycle_in_chains"]


def literature():
    """The largest networks of the examples, and the one with robustness."""
    return [(name.replace("_", " "), (EXAMPLES / f"{name}.crn").read_text("utf-8")) for name in LITERATURE]


def proved():
    """For each part pairs of a name and a text, to measure it on."""
    large = [("240 reactions near all limits", near_limits()), ("30 pairs of species, each a linkage class", "".join(f"A{i} <-> B{i}\n" for i in range(30))),
             ("random network of 40 species without reverses", random_directed()),
             ("random network of 60 species, 240 reactions", random_directed(60, 160, 240)), ("nineteen-site futile cycle", futile(19))]
    return {
        "persist": conservative(),
        "parts": [*large, *literature()],
        "robust": [*large, *literature()],
        "endo": [
            *((f"futile cycle, {sites} site{'s' * (sites > 1)}", futile(sites)) for sites in (1, 2, 4, 8)),
            *((f"random reversible, {species} species, {lines} lines", random_reversible(species, lines))
              for species, lines in ((20, 5), (20, 6), (20, 30), (30, 45), (40, 60))),
        ],
    }


def networks():
    """Pairs of a name and a text that spells a network, to certify."""
    pairs = [f"X{i} -> X{j}\n" for i in range(12) for j in range(12) if i != j]
    row = "".join(f"{c}A -> {c + 1}A\n" for c in range(1, 99))
    return [
        ("one reaction", "A -> B\n"),
        ("nine-site futile cycle", futile(9)),
        ("nineteen-site futile cycle", futile(19)),
        ("120 different lines, 12 species", "".join(pairs[:120])),
        ("30 pairs of species, each a linkage class", "".join(f"A{i} <-> B{i}\n" for i in range(30))),
        ("99 amounts of one species in a row", row),
        ("random reversible network of 40 species", random_reversible()),
        ("random network of 40 species without reverses", random_directed()),
        ("240 reactions near all limits", near_limits()),
    ]


def first_version(document):
    """A certificate of version 2 as one of version 1."""
    lists, lines = [], []
    for line in document.splitlines(True):
        word, _, rest = line.partition(b" ")
        if word == b"vector":
            lists.append(rest)
        elif word in (b"refa", b"refb"):
            lines.append(word.replace(b"ref", b"cut") + b" " + lists[int(rest) - 1])
        elif word not in (b"vectors", b"section"):
            lines.append(line)
    return b"".join(lines).replace(b"crn certificate 2", b"crn certificate 1", 1)


def with_lists(document, lists):
    """A certificate in version 2 without shared lists, with these."""
    lines = "".join(f"vector {' '.join(map(str, numbers))}\n" for numbers in lists)
    return document.replace("vectors 0\n", f"vectors {len(lists)}\n{lines}")


def documents(document):
    """Pairs of a name and a document, most of them with long lines, made from a certificate without shared lists."""
    widest = [2**72 - 1 - k if k % 2 else k + 1 - 2**72 for k in range(400)]
    lines = document.split("\n")
    long_word = lines.index("vectors 0")
    return [
        ("4,096 shared lists of 400 numbers of 22 digits", with_lists(document, [widest] * 4096)),
        ("512 shared lists of 400 numbers of 22 digits", with_lists(document, [widest] * 512)),
        ("512 shared lists of 400 numbers of one digit", with_lists(document, [[k % 10 for k in range(400)]] * 512)),
        ("a shared number of 16,377 digits (rejected)", with_lists(document, [["7" * 16_377]])),
        ("240 network lines of 16,384 bytes (rejected)", "crn certificate 2\nnetwork 240\n" + ("x" * 16_384 + "\n") * 240),
        ("240 network lines of 16,384 bytes that begin well (rejected)",
         "crn certificate 2\nnetwork 240\n" + "".join(f"{k}A -> {k + 1}A".ljust(16_384) + "\n" for k in range(2, 242))),
        ("a line of 16,384 bytes with too many numbers (rejected)",
         "\n".join([*lines[:long_word], "vectors 1", "vector" + " 1" * 8_189, *lines[long_word + 1 :]])),
        ("a word of 16,384 bytes (rejected)", "\n".join([*lines[:long_word], "w" * 16_384, ""])),
    ]


WORDS = ["0", "1", "2", "3", "01", "-1", "-0", "", "yes", "no", "99999999999", str(2**72), "end", "q4", "vectors", "section", "refa", "tie", "foo"]


def damaged(document, dice):
    """The document with one slip, or with two."""
    lines = document.split(b"\n")
    for _ in range(dice.choice([1, 1, 1, 2])):
        place, kind = dice.randrange(len(lines)), dice.random()
        words = lines[place].split(b" ")
        word = dice.randrange(len(words))
        if kind < 0.1:
            del lines[place]
        elif kind < 0.2:
            lines.insert(place, dice.choice(lines))
        elif kind < 0.5:
            words[word] = dice.choice(WORDS).encode()
            lines[place] = b" ".join(words)
        elif kind < 0.6:
            lines[place] += dice.choice([b" ", b"\r", b" 1", b" yes", b"\t"])
        elif kind < 0.7:
            text = b"\n".join(lines)
            cut = dice.randrange(len(text) + 1)
            slip = dice.choice([b"\n", b" ", b"\r", b"0", b"1", b"\xc8", b"\0"]) + text[cut:]
            lines = (text[:cut] + dice.choice([b"", slip])).split(b"\n")
        elif words[word].lstrip(b"-").isdigit():
            words[word] = str(int(words[word]) + dice.choice([-1, 1])).encode()
            lines[place] = b" ".join(words)
        lines = lines or [b""]
    return b"\n".join(lines)


def random_network(seed):
    """A text of a network of any size within the limits, or nearly: some texts are refused."""
    dice = random.Random(seed)
    count, reactions = dice.choice([3, 6, 12, 25, 60]), dice.choice([3, 10, 40, 120, 240])
    most, terms = dice.choice([1, 1, 2, 3, 20, 99]), dice.choice([1, 2, 2, 3, 6])

    def side():
        names = dice.sample(range(count), min(count, dice.randint(dice.choice([0, 1, 1, 1, 1]), terms)))
        return " + ".join(f"{dice.randint(1, most)}S{s}" for s in names) or "0"

    sides = list(dict.fromkeys(side() for _ in range(dice.choice([4, 10, 40, 150])))) + ["Z"]
    if dice.random() < 0.3:
        return "".join(f"{left} <-> {right}\n" for left, right in zip(sides, sides[1:120]))
    arrows = ["->", "->", "<->", "<-"] if reactions < 200 else ["->"]
    lines = ["{} {arrow} {}\n".format(*dice.sample(sides, 2), arrow=dice.choice(arrows)) for _ in range(reactions)]
    return "".join(lines)


def small_network(seed):
    """A text of a network of a few species, small enough for a slow search; some texts spell none."""
    dice = random.Random(seed)
    count, most = dice.choice([2, 3, 3, 4, 5]), dice.choice([1, 1, 2, 3])

    def side():
        names = dice.sample(range(count), min(count, dice.choice([0, 1, 1, 2, 2])))
        return " + ".join(f"{dice.randint(1, most)}S{s}" for s in names) or "0"

    sides = list(dict.fromkeys(side() for _ in range(dice.choice([2, 3, 4, 6])))) + ["Z"]
    if dice.random() < 0.4:
        return "".join(f"{left} <-> {right}\n" for left, right in zip(sides, sides[1:]))
    arrows = ["->", "->", "<->"]
    return "".join("{} {arrow} {}\n".format(*dice.sample(sides, 2), arrow=dice.choice(arrows)) for _ in range(dice.choice([1, 2, 3, 4, 6])))


def random_text(seed):
    """A small text, of which about half spell a network."""
    dice = random.Random(seed)
    names = [f"S{i}" for i in range(dice.choice([3, 8, 70]))] + ["x" * 32, "_", "a9"]
    slips = dice.choice([0.0, 0.0, 0.02, 0.2])

    def blanks():
        return dice.choice(["", " ", "", "\t", "  "])

    def slip(text, others):
        return dice.choice(others) if dice.random() < slips else text

    def term():
        number = dice.choice(["", "", "", "1", "2", "007", "99"] if dice.random() > 0.1 else ["60", "3 ", "40", "12\t"])
        return slip(number, ["0", "100", "000", "4294967296", "99999999999999999999", "1 1"]) + slip(dice.choice(names), ["", "7", "x" * 33, "A B", "é", "%", "\x7f"])

    def side():
        if dice.random() < 0.1:
            return slip("0", ["00", "1", "0 0", ""])
        return f"{blanks()}+{blanks()}".join(term() for _ in range(dice.choice([1, 1, 2, 3, 6])))

    def line():
        if dice.random() < 0.1:
            return blanks()
        text = side()
        for _ in range(dice.choice([1, 1, 1, 1, 2, 3])):
            arrow = slip(dice.choice(["->", "<->", "<-"]), ["", "<", ">", "-", "=>", "<-->", "- >", "+"])
            text += blanks() + arrow + blanks() + side()
        return slip(blanks(), ["\r", "\0", "!"]) + text + blanks()

    def whole():
        end = dice.choice(["\n", "\n", "\n", "\r\n", "# more\n", "#\r\n", "#\xff\r# <\n"])
        return line() + slip(end, ["\r", "\r\r\n", "\n\n"])

    count = dice.choice([1, 2, 5, 30, 400])
    text = "".join(whole() for _ in range(count))
    return text if dice.random() < 0.7 else text.rstrip("\r\n")
