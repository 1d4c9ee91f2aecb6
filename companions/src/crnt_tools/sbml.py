"""Reads SBML, levels 2 and 3, by libSBML: in Debian the package python3-sbml5, elsewhere python-libsbml."""

from __future__ import annotations

from collections import Counter
from fractions import Fraction
from functools import cached_property
from typing import Any, Iterator

from .errors import NotImported, ToolMissing
from .model import Model, ModelReaction, Side

#: Packages of level 3 that change nothing about which reactions there are.
HARMLESS = {"fbc", "layout", "render", "groups", "distrib", "l3v2extendedmath"}


def library() -> Any:
    """The module libsbml."""
    try:
        import libsbml  # type: ignore[import]
    except ImportError:
        raise ToolMissing("SBML is read by libSBML, which is not there: apt-get install python3-sbml5 (for Debian's "
                          "python3), or pip install python-libsbml") from None
    return libsbml


def read(text: str, origin: str) -> Model:
    """The model of an SBML document. Raises NotImported with the id of the element that no network can have."""
    libsbml = library()
    return Reader(libsbml, libsbml.readSBMLFromString(text), origin).model()


def called(element: Any) -> str:
    """An element by its id and its name."""
    name = element.getName()
    return f"{element.getId()} ({name})" if name and name != element.getId() else str(element.getId())


class Reader:
    """Reads one document."""

    def __init__(self, libsbml: Any, document: Any, origin: str):
        self.libsbml, self.document, self.origin = libsbml, document, origin
        self.sbml = document.getModel()

    def model(self) -> Model:
        self.refuse_what_cannot_be_read()
        self.refuse_doubled_ids()
        level, version = self.document.getLevel(), self.document.getVersion()
        made = Model(f"{called(self.sbml) or 'a model'}, from {self.origin} (SBML level {level} version {version})")
        for species in self.sbml.getListOfSpecies():
            made.add_species(species.getId(), called(species), self.held(species))
        made.remarks = list(self.unsaid(made))
        for reaction in self.sbml.getListOfReactions():
            made.reactions.append(self.reaction(reaction))
        if not made.reactions:
            raise NotImported(f"model {self.sbml.getId()}", "it has no reaction")
        return made

    def refuse_what_cannot_be_read(self) -> None:
        libsbml, document = self.libsbml, self.document
        if self.sbml is not None and document.getLevel() < 2:
            raise NotImported("sbml", "it is of level 1: let a tool save it as level 2 or 3, which are read")
        plugins = [document.getPlugin(at) for at in range(document.getNumPlugins())]
        packages = {it.getPackageName(): it.getURI() for it in plugins}
        for at in range(document.getNumUnknownPackages()):
            packages[document.getUnknownPackagePrefix(at)] = document.getUnknownPackageURI(at)
        for name, uri in packages.items():
            if name not in HARMLESS and document.getPackageRequired(uri):
                cure = ": let a tool flatten the model first" if name == "comp" else ""
                raise NotImported("sbml", f"it needs the package {name}, so its reactions are not just those listed{cure}")
        passed = (libsbml.MissingXMLDecl, libsbml.MissingXMLEncoding)
        for fault in (document.getError(at) for at in range(document.getNumErrors())):
            if fault.getSeverity() >= libsbml.LIBSBML_SEV_ERROR and fault.getErrorId() not in passed:
                raise NotImported(f"line {fault.getLine()}", " ".join(fault.getMessage().split()))
        if self.sbml is None:
            raise NotImported("sbml", "it has no model")

    def refuse_doubled_ids(self) -> None:
        """Two elements of one id, which libSBML reads in silence."""
        ids = Counter(it.getId() for it in (*self.sbml.getListOfSpecies(), *self.sbml.getListOfReactions()))
        for id_, times in ids.items():
            if times > 1:
                raise NotImported(f"the id {id_}", f"{times} elements have it")

    def unsaid(self, made: Model) -> Iterator[str]:
        """What the model says and the network does not."""
        for key, how in self.ruled.items():
            if key in made.species and not made.species[key].held:
                yield f"the network does not say that {key} is set by {how}"
        algebraic = sum(rule.isAlgebraic() for rule in self.sbml.getListOfRules())
        for count, what in ((self.sbml.getNumEvents(), "events"), (algebraic, "algebraic rules")):
            if count:
                yield f"the network does not say what the {what} of the model do: {count}"
        if any(it.isSetConversionFactor() for it in (self.sbml, *self.sbml.getListOfSpecies())):
            yield "conversion factors, which are changes of units, are not in the network"

    @cached_property
    def ruled(self) -> dict[str, str]:
        """What sets each variable that something sets, but for the reactions."""
        found = {}
        for rule in self.sbml.getListOfRules():
            if rule.isAssignment() or rule.isRate():
                found[rule.getVariable()] = f"the {'assignment' if rule.isAssignment() else 'rate'} rule for it"
        for event in self.sbml.getListOfEvents():
            for it in event.getListOfEventAssignments():
                found.setdefault(it.getVariable(), f"the event {event.getId() or event.getName()}".strip())
        for it in self.sbml.getListOfInitialAssignments():
            if self.sbml.getSpecies(it.getSymbol()) is None:
                found.setdefault(it.getSymbol(), "the initial assignment for it")
        return found

    def held(self, species: Any) -> str:
        """Why no reaction changes a species, or nothing."""
        if species.getBoundaryCondition():
            set_by = self.ruled.get(species.getId())
            return f"a boundary species, set by {set_by}" if set_by else "a boundary species"
        return "constant" if species.getConstant() else ""

    def reaction(self, reaction: Any) -> ModelReaction:
        made = ModelReaction(f"reaction {called(reaction)}", self.side(reaction, reaction.getListOfReactants()),
                             self.side(reaction, reaction.getListOfProducts()), bool(reaction.getReversible()))
        made.modifiers = [it.getSpecies() for it in reaction.getListOfModifiers()]
        for key in {key for key, _ in [*made.reactants, *made.products]} | set(made.modifiers):
            if self.sbml.getSpecies(key) is None:
                raise NotImported(f"reaction {reaction.getId()}", f"there is no species {key}")
        if reaction.getReversible() and reaction.getLevel() == 2 and 'reversible="' not in head_of(reaction):
            made.remark = "reversible, as level 2 has it where nothing is said"
        return made

    def side(self, reaction: Any, references: Any) -> Side:
        return [(it.getSpecies(), self.amount(reaction, it)) for it in references]

    def amount(self, reaction: Any, reference: Any) -> Fraction:
        """The stoichiometry of a species reference, if it is a number that does not change."""
        where = f"reaction {reaction.getId()}, species {reference.getSpecies()}"
        if reference.getId() and reference.getId() in self.ruled:
            raise NotImported(where, f"its stoichiometry is set by {self.ruled[reference.getId()]}")
        if reference.isSetStoichiometryMath():
            return self.number(reference.getStoichiometryMath().getMath(), where)
        if reference.getLevel() > 2 and not reference.isSetStoichiometry():
            raise NotImported(where, "its stoichiometry is not said")
        found = reference.getStoichiometry()
        if found != found or found in (float("inf"), float("-inf")):
            raise NotImported(where, f"its stoichiometry is {found}")
        # the shortest decimal that is this double, as the file has it; libSBML keeps a ratio of level 2 in two numbers
        return Fraction(repr(found)) / int(reference.getDenominator() if reference.getLevel() == 2 else 1)

    def number(self, math: Any, where: str) -> Fraction:
        libsbml = self.libsbml
        kind = math.getType() if math is not None else None
        if kind == libsbml.AST_INTEGER:
            return Fraction(math.getInteger())
        if kind == libsbml.AST_RATIONAL:
            return Fraction(math.getNumerator(), math.getDenominator())
        if kind in (libsbml.AST_REAL, libsbml.AST_REAL_E):
            return Fraction(repr(math.getReal()))
        formula = libsbml.formulaToString(math) if math is not None else "empty"
        raise NotImported(where, f"its stoichiometry is the formula {formula}, not a number")


def head_of(element: Any) -> str:
    """The start tag of an element."""
    return str(element.toSBML()).partition(">")[0]
