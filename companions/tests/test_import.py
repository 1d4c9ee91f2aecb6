"""Files of other tools: SBML, BioNetGen, and lines with other arrows."""

import random
import re
from fractions import Fraction

import crnt_tools as ct
import support
from crnt_tools import arrows, cures
from crnt_tools.importing import format_of, import_text
from crnt_tools.model import legal_names

#: What a line says to other tools, and the network text; by hand.
LINES = {
    "A --> B": "A -> B", "A => B": "A -> B", "A -> B ; k1": "A -> B", "A -> B, k1": "A -> B", "k1, A --> B": "A -> B",
    "(k1, k2), A <--> B": "A <-> B", "A <=> B": "A <-> B", "A = B": "A <-> B", "A ⇌ B": "A <-> B", "A → B": "A -> B",
    "A <- B": "B -> A", "B ← A": "A -> B", "∅ → A": "0 -> A", "A → Ø": "A -> 0", "{} -> A": "0 -> A",
    "R1: 2 A + B -> C": "2A + B -> C", "A + A -> B": "2A -> B", "2*A -> B": "2A -> B", "2·A -> B": "2A -> B",
    "0.5 A -> B": "A -> 2B", "1/2 A + B -> C": "A + 2B -> 2C", "A -k1-> B": "A -> B", "A --k1--> B": "A -> B",
    "A ->[k1] B": "A -> B", "E + S <=> ES --> E + P ; kf, kr, kcat": "E + S <-> ES\nES -> E + P",
    "A -> B; B -> C": "A -> B\nB -> C", "Ca2+ + A -> B": "Ca2_plus + A -> B", "Cl- -> 0": "Cl_minus -> 0",
    "[A] + [B] -> [C]": "A + B -> C", "E-P -> E": "E_P -> E", "A* -> A": "A_star -> A", "α -> β": "alpha -> beta",
    "H₂O -> 0": "H2O -> 0", "2(A + B) -> C": "2A + 2B -> C", "A -> B # note": "A -> B", "A -> B // note": "A -> B",
    "A $\\to$ B": "A -> B", "\\ce{A <=> B}": "A <-> B", "k1=2": "", "% note": "", "species A, B": "", "v := k*A": "",
}
#: Lines that can be read in two ways, or in none.
UNREADABLE = [
    "A, B -> C", "a, b -> c", "K, A -> B", "α, β -> γ", "A -> B kinase", "A B -> C", "A + -> B",
    "A -> -> B", "(2) A -> B", "2. A -> B", "A^2 -> B", "A - B -> C", "3 -> A",
    "A + B\n-> C", "A +\nB -> C", "A + B ->\nC", "100 A -> B", "0.333 A -> B", "-2 A -> B",
]

SBML = """<?xml version="1.0" encoding="UTF-8"?>
<sbml xmlns="http://www.sbml.org/sbml/level{level}/version{version}{core}" level="{level}" version="{version}">
<model id="m" name="a model"><listOfCompartments><compartment id="c" size="1" {compartment}/></listOfCompartments>
<listOfSpecies>{species}</listOfSpecies>{parameters}{rules}<listOfReactions>{reactions}</listOfReactions></model></sbml>
"""
LEVEL_1 = b"""<?xml version="1.0"?>
<sbml xmlns="http://www.sbml.org/sbml/level1" level="1" version="2"><model name="m"><listOfCompartments><compartment name="c"/>
</listOfCompartments><listOfSpecies><species name="A" compartment="c" initialAmount="1"/><species name="B" compartment="c"
initialAmount="1"/></listOfSpecies><listOfReactions><reaction name="r"><listOfReactants><speciesReference species="A"/>
</listOfReactants><listOfProducts><speciesReference species="B"/></listOfProducts></reaction></listOfReactions></model></sbml>
"""


def sbml(species, reactions, level=2, rules="", parameters=""):
    """A document with these species, each an id and further attributes, and these reactions."""
    more = 'hasOnlySubstanceUnits="false" boundaryCondition="false" constant="false"' if level == 3 else ""

    def attributes(extra):
        return " ".join([extra, *(it for it in more.split(" ") if it.split("=")[0] not in extra)])

    listed = "".join(f'<species id="{id_}" compartment="c" initialAmount="1" {attributes(extra)}/>' for id_, extra in species)
    return SBML.format(level=level, version=4 if level == 2 else 1, core="/core" if level == 3 else "", species=listed,
                       reactions=reactions, rules=rules, parameters=parameters,
                       compartment='constant="true"' if level == 3 else "").encode()


def reaction(id_, left, right, extra="", modifiers=""):
    """A reaction with (species, attributes) on each side."""

    def side(word, members):
        inner = "".join(f'<speciesReference species="{name}" {more}/>' if not more.startswith("<") else
                        f'<speciesReference species="{name}">{more}</speciesReference>' for name, more in members)
        return f"<listOf{word}>{inner}</listOf{word}>" if members else ""

    return f'<reaction id="{id_}" {extra}>{side("Reactants", left)}{side("Products", right)}{modifiers}</reaction>'


def of_level_3(reactions):
    """The same with the attributes that level 3 requires."""
    plain = re.sub(r'(<speciesReference species="\w+") />', r'\1 stoichiometry="1"/>', reactions)
    return plain.replace('"/></listOf', '" constant="true"/></listOf').replace('"/><speciesR', '" constant="true"/><speciesR').replace(
        '<modifierSpeciesReference species="K" constant="true"/>', '<modifierSpeciesReference species="K"/>').replace(
        "reversible=", 'fast="false" reversible=')


def statements(text):
    return str(ct.Network.of_text(text))


def needs_libsbml():
    try:
        import libsbml  # noqa: F401
    except ImportError:
        raise support.Skipped("libsbml (Debian: python3-sbml5) is not there") from None


def imported(text, name="model", **flags):
    """The network of a text, or why it is not imported."""
    try:
        made = import_text(text if isinstance(text, bytes) else text.encode(), name, **flags)
    except ct.NotImported as it:
        return f"not imported: {it}"
    return statements(made.text)


def test_lines():
    for line, wanted in LINES.items():
        found = imported(f"{line}\nZ1 -> Z2\n")
        yield line, found == statements(f"{wanted}\nZ1 -> Z2\n"), found
    for line in UNREADABLE:
        found = imported(f"Z1 -> Z2\n{line}\n")
        yield f"{line!r} is refused", found.startswith("not imported") and ("line 2" in found or "line 3" in found), found
    yield "nothing but one complex", "the two sides of each reaction are the same" in imported("A -> A\n"), imported("A -> A\n")


def test_cures():
    """For the lines of FORMATS that are refused, what is suggested is what FORMATS suggests, or nothing."""
    document = (support.ROOT / "docs" / "FORMATS.md").read_text("utf-8")
    part = document.split("## If your text is refused")[1].split("**Accepted, but")[0].split("**Files.**")[0]
    rows = [re.split(r"(?<!\\) \| ", line[2:-2]) for line in part.splitlines() if line.startswith("| `")]
    same = other = 0
    for row in rows:
        typed, wanted = ([it.replace("\\|", "|") for it in re.findall(r"`([^`]+)`", cell)] for cell in (row[0], row[-1]))
        for line in typed:
            made = [cures.suggestion(it) for it in line.split("\\n")]
            found = "\n".join(it.replace("`", "").replace("; ", "\n") for it in made if it)
            if found:
                yield f"{line}: the suggestion is a network text", statements(found)
            if found and shape(found) in [shape(it.replace("\\n", "\n")) for it in wanted if "->" in it or "<-" in it]:
                same += 1
            elif found:
                other += 1
                yield f"{line}: no other reaction is suggested", "note" in " ".join(wanted) or "reactions" in " ".join(wanted) or \
                    line in ("A + B\\n-> C", "A +\\nB -> C", "A + B ->\\nC"), found, wanted
    yield "most have a suggestion", same > 100, same, other


def shape(text):
    """The network of a text with its species by number."""
    network = ct.Network.of_text(text)
    names = {name: f"X{k}" for k, name in enumerate(network.species)}
    return re.sub(r"[A-Za-z_]\w*", lambda found: names[found[0]], str(network))


def test_names():
    called = {"a": "A(b!1).B(a!1)", "b": "A(b,1)_B(a!1)", "c": "A_b_1_B_a_1", "d": "x" * 40, "e": "x" * 33, "f": "1a", "g": "α-β",
              "h": "_x", "i": "Fe3+", "j": "Fe2+", "k": "é", "l": "A'"}
    names = legal_names(called)
    legal = re.compile(r"[A-Za-z_][A-Za-z0-9_]{0,31}")
    yield "names", all(map(legal.fullmatch, names.values())) and len(set(names.values())) == len(names), names
    yield "a legal name stays", names["c"] == "A_b_1_B_a_1" and names["h"] == "_x"
    yield "charges are said", (names["i"], names["j"]) == ("Fe3_plus", "Fe2_plus")
    dice = random.Random(7)
    for number in range(300):
        many = {str(k): "".join(dice.choice("ab1_+-*' αß²(,") for _ in range(dice.randint(1, 45))) for k in range(20)}
        names = legal_names(many)
        yield f"names {number}", all(map(legal.fullmatch, names.values())) and len(set(names.values())) == 20, many
        yield f"legal names {number}", all(
            names[key] == it for key, it in many.items() if legal.fullmatch(it) and list(many.values()).count(it) == 1)


def test_random_lines():
    """Networks by chance, written with other arrows, are those networks."""
    dice = random.Random(11)
    for seed in range(200):
        text = support.random_text(seed)
        other = text
        both = ["<=>", "⇌", "<-->", *([] if re.search(r"\b0\b", text) else ["="])]
        for arrow, others in (("<->", both), (" -> ", [" --> ", " => ", " → "]), ("<- ", ["<-- ", "← "])):
            other = other.replace(arrow, dice.choice(others))
        other = re.sub(r"\b0\b", lambda _: dice.choice(["0", "∅"]), other)
        other = "".join(f"{line}{dice.choice(['', ' ; k1', ' , 0.5', '  # note'])}\n" for line in other.splitlines())
        yield f"network {seed}", imported(other) == statements(text), other


def test_bionetgen():
    text = """# Created by BioNetGen
begin parameters
    1 kp  1.0
end parameters
begin species
    1 L(r) L0
    2 R(l,d) 100
    3 $T() 1
    4 L(r!1).R(l!1,d) 0 # bound
    5 S(y~P) 0
    6 Never() 3
end species
begin reactions
    1 1,2 4 2*kp #_R1
    2 4 1,2 km #_reverse__R1
    3 4,4 5,3 kd
    4 5 0 ku
end reactions
begin groups
    1 Bound 4
end groups
"""
    made = import_text(text.encode(), "egfr.net")
    wanted = "L_r + R_l_d -> B\nB -> L_r + R_l_d\n2B -> S_y_P\nS_y_P -> 0\n".replace("B", made.names["4"])
    yield "the network", statements(made.text) == statements(wanted), made.text
    yield "the fixed species is named", "$T() 1" not in made.text and "T(): left out, fixed ($)" in made.text, made.text
    yield "so is the one in no reaction", "Never(): left out, in no reaction" in made.text
    yield "kept if that is said", "T" in import_text(text.encode(), "egfr.net", keep_held=True).names.values()
    yield "by its first lines", format_of(text) == "bionetgen"
    for change, said in (("4,4 5,3", "there is no species 9"), ("4,4 5,3", "the line")):
        bad = text.replace("4,4 5,3 kd", "4,9 5,3 kd" if "9" in said else "what")
        yield said, said in imported(bad, "egfr.net")
    rules = "begin molecule types\nA(b)\nend molecule types\nbegin species\n1 A(b) 1\nend species\nbegin reaction rules\n"
    yield "rules alone", "generate_network" in imported(rules, "x.net")
    for block in ("model", "seed species", "molecule types", "parameters"):
        rules = (f"# note\nbegin {block}\nA(b) 1\nend {block}\nbegin reaction rules\nA(b) + B(a) <-> A(b!1).B(a!1) k, l\n"
                 "end reaction rules\n")
        yield f"rules after {block} are no lines with arrows", "generate_network" in imported(rules), imported(rules)


def test_boundary_species_of_antimony():
    text = "$X -> A; k1*X\nA -> $Y\nA + X -> 2 A\n"
    made = import_text(text.encode(), "model").text
    yield "left out", statements(made) == "0 -> A\nA -> 0\nA -> 2A\n" and "X: left out, held constant ($)" in made, made
    yield "kept if that is said", imported(text, keep_held=True) == "X -> A\nA -> Y\nX + A -> 2A\n", imported(text, keep_held=True)
    yield "declared", imported("species A, $X;\nX -> A\n") == "0 -> A\n", imported("species A, $X;\nX -> A\n")
    for formula in ("$A \\to B$", "$A -> B$", "$A$ -> $B$", "A $\\to$ B"):
        yield f"{formula} is LaTeX", imported(formula) == "A -> B\n", imported(formula)


def test_encodings():
    """UTF-16 with its mark is read, and XML in the encoding that it names."""
    text = "α --> B\nB => 0\n"
    for encoding in ("utf-8", "utf-8-sig", "utf-16"):
        yield f"{encoding}", imported(text.encode(encoding)) == "alpha -> B\nB -> 0\n", imported(text.encode(encoding))
    yield "the other order of bytes", imported(b"\xfe\xff" + text.encode("utf-16-be")) == "alpha -> B\nB -> 0\n"
    for encoding in ("utf-16-le", "utf-32"):
        yield f"{encoding} is refused", "save it as UTF-8" in imported(text.encode(encoding)), imported(text.encode(encoding))
    needs_libsbml()
    model = sbml([("A", 'name="Größe"'), ("B", "")], reaction("r", [("A", "")], [("B", "")], 'reversible="false"')).decode()
    for encoding in ("UTF-8", "UTF-16", "ISO-8859-1", "windows-1252"):
        made = import_text(model.replace("UTF-8", encoding).encode(encoding), "model").text
        yield f"SBML in {encoding}", statements(made) == "A -> B\n" and "A (Größe)" in made, made
    yield "an unknown encoding", "no encoding klingon is known" in imported(model.replace("UTF-8", "klingon"))


def test_sbml():
    needs_libsbml()
    species = [("A", ""), ("B", 'name="the B"'), ("X", 'boundaryCondition="true"'), ("K", 'constant="true" boundaryCondition="true"')]
    bind = reaction("bind", [("A", ""), ("X", "")], [("B", "")], 'reversible="true"')
    turn = reaction("turn", [("B", 'stoichiometry="2"')], [("A", "")], 'reversible="false"',
                    '<listOfModifiers><modifierSpeciesReference species="K"/></listOfModifiers>')
    for level in (2, 3):
        text = sbml(species, bind + turn if level == 2 else of_level_3(bind + turn), level)
        yield f"level {level}", imported(text) == statements("A <-> B\n2B -> A\n"), imported(text)
        yield f"level {level}, boundary kept", imported(text, keep_held=True) == statements("A + X <-> B\n2B -> A\n")
        yield f"level {level}, all kept", imported(text, keep_held=True, keep_modifiers=True) == statements(
            "A + X <-> B\n2B + K -> A + K\n"), imported(text, keep_held=True, keep_modifiers=True)
        comments = import_text(text, "model.xml").text
        for said in ("from model.xml", f"SBML level {level}", "B (the B)", "X: left out, a boundary species", "reaction bind",
                     "modifiers K"):
            yield f"level {level} says {said}", said in comments, comments
    half = reaction("half", [("A", 'stoichiometry="0.5"')], [("B", "")])
    yield "halves are doubled", imported(sbml(species, half)) == statements("A <-> 2B\n")
    yield "and it is said", "all amounts times 2: 1/2 A to B" in import_text(sbml(species, half), "m").text.replace(" (the B)", "")
    third = reaction("third", [("A", 'stoichiometry="0.333"')], [("B", "")])
    yield "no third", "reaction third" in imported(sbml(species, third)), imported(sbml(species, third))
    ratio = '<stoichiometryMath><math xmlns="http://www.w3.org/1998/Math/MathML">{}</math></stoichiometryMath>'
    exact = reaction("exact", [("A", ratio.format('<cn type="rational">1<sep/>3</cn>'))], [("B", "")], 'reversible="false"')
    yield "a rational third", imported(sbml(species, exact)) == "A -> 3B\n", imported(sbml(species, exact))
    formula = reaction("formula", [("A", ratio.format("<ci>n</ci>"))], [("B", "")])
    found = imported(sbml(species, formula, parameters='<listOfParameters><parameter id="n" value="2"/></listOfParameters>'))
    yield "a formula is refused", "reaction formula, species A" in found and "formula n" in found, found
    minus = reaction("minus", [("A", 'stoichiometry="-1"')], [("B", "")])
    yield "a negative amount is refused", "reaction minus" in imported(sbml(species, minus))


def test_sbml_level_3_amounts():
    """Amounts that are not said, or that something sets."""
    needs_libsbml()
    species = [("A", ""), ("B", "")]
    plain = 'stoichiometry="1" constant="true"'
    unsaid = reaction("open", [("A", 'constant="false" id="n"')], [("B", plain)], 'reversible="false" fast="false"')
    yield "not said", "reaction open, species A" in imported(sbml(species, unsaid, 3)), imported(sbml(species, unsaid, 3))
    rule = ('<listOfRules><assignmentRule variable="n"><math xmlns="http://www.w3.org/1998/Math/MathML"><cn>2</cn></math>'
            "</assignmentRule></listOfRules>")
    found = imported(sbml(species, unsaid, 3, rules=rule))
    yield "set by a rule", "assignment rule" in found and "species A" in found, found


def test_sbml_that_is_none():
    needs_libsbml()
    species = [("A", ""), ("B", "")]
    yield "no reaction", "it has no reaction" in imported(sbml(species, "").replace(b"<listOfReactions></listOfReactions>", b""))
    yield "no XML", imported(b"<?xml version='1.0'?><sbml").startswith("not imported: line"), imported(b"<?xml version='1.0'?><sbml")
    yield "another document", "not imported" in imported(b'<?xml version="1.0"?><html></html>')
    missing = reaction("r", [("A", "")], [("C", "")])
    yield "a species that is not there", "not imported" in imported(sbml(species, missing)), imported(sbml(species, missing))
    doubled = imported(sbml([*species, ("A", 'name="other"')], reaction("r", [("A", "")], [("B", "")])))
    yield "two species of one id", "the id A: 2 elements have it" in doubled, doubled
    doubled = imported(sbml(species, 2 * reaction("r", [("A", "")], [("B", "")])))
    yield "two reactions of one id", "the id r: 2 elements have it" in doubled, doubled
    yield "level 1", "it is of level 1" in imported(LEVEL_1), imported(LEVEL_1)
    none = b'<?xml version="1.0"?><sbml xmlns="http://www.sbml.org/sbml/level3/version2/core" level="3" version="2"/>'
    yield "no model", "it has no model" in imported(none), imported(none)
    held = [("A", 'boundaryCondition="true"'), ("B", 'boundaryCondition="true"')]
    yield "nothing left", "no reaction is left" in imported(sbml(held, reaction("r", [("A", "")], [("B", "")])))
    long = [("a" * 40, ""), ("a" * 41, "")]
    made = imported(sbml(long, reaction("r", [long[0]], [long[1]], 'reversible="false"')))
    yield "long ids", made == f"{'a' * 32} -> {'a' * 30}_2\n", made


def test_sbml_examples():
    """libSBML's own example models: each is imported and reported on, or refused with a reason."""
    needs_libsbml()
    models = sorted(support.SBML_EXAMPLES.rglob("*.xml"))
    if not models:
        raise support.Skipped("the models of libsbml5-examples are not there")
    made = refused = 0
    for path in models:
        name = str(path.relative_to(support.SBML_EXAMPLES))
        try:
            text = import_text(path.read_bytes(), name).text
        except ct.NotImported as it:
            refused += 1
            yield f"{name} is refused with a reason", it.where and len(it.why) > 10, it
            continue
        made += 1
        report = ct.report(text)
        yield f"{name} is reported on", str(report.network) and f"from {name} (SBML level" in text
        import libsbml
        model = libsbml.readSBMLFromFile(str(path)).getModel()
        ids = [it.getId() for it in model.getListOfReactions()]
        yield f"{name}: each reaction has its comment", all(re.search(rf"# reaction {id_}\b|: reaction {id_}\b", text) for id_ in ids)
        ids = [it.getId() for it in model.getListOfSpecies()]
        yield f"{name}: each species has its comment", all(re.search(rf"^#   \S+ +{id_}\b", text, re.MULTILINE) for id_ in ids), text
    said = f"Of the {len(models)} models of `libsbml5-examples` {made} are imported"
    yield "README says how many", said in (support.COMPANIONS / "README.md").read_text("utf-8"), said


def test_sbml_amounts_of_an_example():
    """One of the models in full, by hand: dimerization, of which the species are on both sides."""
    needs_libsbml()
    path = support.SBML_EXAMPLES / "sample-models/from-spec/level-3/enzymekinetics.xml"
    if not path.is_file():
        raise support.Skipped("the models of libsbml5-examples are not there")
    yield "the enzyme", imported(path.read_bytes()) == statements("E + S <-> ES\nES -> E + P\n"), imported(path.read_bytes())


def test_arrow_readings():
    """Sides and directions of single arrows."""
    one = Fraction(1)
    for line, wanted in {
        "A <- B": [([("B", one)], [("A", one)], False)],
        "A <-> B <- C": [([("A", one)], [("B", one)], True), ([("C", one)], [("B", one)], False)],
        "A -> B -> C": [([("A", one)], [("B", one)], False), ([("B", one)], [("C", one)], False)],
        "0.25 A + 3 B <=> 0": [([("A", Fraction(1, 4)), ("B", Fraction(3))], [], True)],
    }.items():
        found = [(it.left, it.right, it.reversible) for it in arrows.read_line(line)]
        yield line, found == wanted, found
