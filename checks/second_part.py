"""What the second programs of parts share: how a part document opens and ends, and what `prove` and `verify` answer."""

from second_opinion import Reading, Rejected, read_network

BUDGET, MAX_BUDGET = 20_000, 100_000


class PartReading(Reading):
    """A part document, read line by line. `known` has the words that the next line may begin with."""

    def __init__(self, text, known):
        super().__init__(text)
        self.known = known

    def words(self):
        return self.known


class SecondProgram:
    """A second program for a part. Each part has its `name` and the `words` of its lines, and says:

    - `check(at, net)`: what the lines below the network say, each tested, or Rejected is raised;
    - `said(net, answer)`: what `verify` writes of that, and `is_open(answer)`;
    - `lines(net, budget)`: lines of an answer, as this program has it;
    - `wrong(net, answer, budget)`: what is wrong with an answer of `prove`, or nothing;
    - `visits(net)`: how many visits its search makes, or nothing if it makes no search."""

    def title(self):
        return f"crn part {self.name} 1"

    def is_open(self, answer):
        return answer[0] in ("wide", "spent")

    def visits(self, net):
        return None

    def check_document(self, text):
        """The network of a good document and what its lines say."""
        at = PartReading(text, self.words)
        net = at.opening({self.title().encode(): 1})
        answer = self.check(at, net)
        at.ending()
        return net, answer

    def verify(self, text):
        """The status and the bytes with which `verify` answers a document."""
        try:
            return 0, self.said(*self.check_document(text)).encode()
        except Rejected as fault:
            return 3, fault.said().encode()

    def prove(self, text, budget=BUDGET):
        """A status and bytes with which `prove` may answer a text that spells a network."""
        net = read_network(text.decode("latin-1"))
        lines = self.lines(net, budget)
        head = f"{self.title()}\nnetwork {len(net.reactions)}\n{net.canonical()}"
        is_open = lines[0].split(" ")[0] in ("spent", "large")
        return int(is_open), (head + "\n".join([*lines, "end", ""])).encode()

    def judged(self, text, status, out, budget=BUDGET):
        """What is wrong with the answer of `prove` to a text that spells a network, or nothing."""
        net = read_network(text.decode("latin-1"))
        try:
            read, answer = self.check_document(out)
        except Rejected as fault:
            return f"its document is {fault.said()}"
        if read.canonical() != net.canonical():
            return "another network"
        if status != self.is_open(answer):
            return "the status"
        return self.wrong(net, answer, budget)


def line(word, numbers=()):
    """A line of a document."""
    return " ".join([word, *map(str, numbers)])


def random_wide(dice, columns, rows):
    """The numbers of an open line, by chance: a coordinate of a system and a basis."""
    return [dice.randint(1, columns + rows), *sorted(dice.sample(range(1, columns + rows + 1), columns))]
