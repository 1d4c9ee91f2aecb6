"""Pictures of a network by Graphviz: the complexes and their reactions, the species and reactions, and a slope of two species."""

from __future__ import annotations

import math
import shutil
import subprocess

from .errors import NetworkNeeded, SlopeNeeded, ToolMissing
from .network import Complex, Network, Reaction
from .parts import Proof
from .report import Report

FORMATS = ("svg", "png", "pdf", "dot")
HEAD = """\
  bgcolor="white"; fontname="Helvetica"; fontsize=12;
  node [fontname="Helvetica", fontsize=12]; edge [fontname="Helvetica", fontsize=10, color="#444444", arrowsize=0.7];
"""
TERMINAL = 'label="terminal"; fontsize=10; style="rounded,filled"; color="#2b6cb0"; fillcolor="#dbeafe";'


def quoted(text: str) -> str:
    return '"' + text.replace("\\", "\\\\").replace('"', '\\"') + '"'


def pairs_of(network: Network) -> list[list[Reaction]]:
    """The reactions, each with its reverse if that is one."""
    pairs: dict[frozenset[int], list[Reaction]] = {}
    for reaction in network.reactions:
        pairs.setdefault(frozenset((reaction.reactant, reaction.product)), []).append(reaction)
    return list(pairs.values())


def numbers_of(pair: list[Reaction]) -> str:
    return ", ".join(str(reaction.number) for reaction in pair)


def frame_of(report: Report, k: int) -> list[str]:
    """The frame of linkage class k, with the frames of its terminal strong classes in it."""
    names, members, deficiencies = report.complex_texts, report.q1.classes[k - 1], report.q6.class_deficiencies
    title = f"linkage class {k}" + (f", deficiency {deficiencies[k - 1]}" if deficiencies else "")
    terminal = [report.q2.classes[number - 1] for number in report.q2.terminal]
    inner = [of for of in terminal if of[0] in members]
    shaded = {c for of in inner for c in of}

    def node(c: int) -> str:
        return f"    c{c} [label={quoted(names[c - 1])}];"

    lines = [f"  subgraph cluster_{k} {{", f'    label={quoted(title)}; color="#888888"; style=rounded;']
    lines += [node(c) for c in members if c not in shaded]
    for number, of in enumerate(inner, 1):
        lines += [f"    subgraph cluster_{k}_{number} {{", f"    {TERMINAL}", *map(node, of), "    }"]
    return [*lines, "  }"]


def complexes_dot(report: Report) -> str:
    """The DOT text of the complexes: a frame for each linkage class, terminal strong classes shaded, reactions numbered.
    Without the network there are no arrows, as a report does not list the reactions."""
    # from the last to the first, since dot draws frames from the bottom to the top
    lines = [line for k in range(len(report.q1.classes), 0, -1) for line in frame_of(report, k)]
    for pair in pairs_of(report.network) if report.network else []:
        both = ", dir=both" if len(pair) > 1 else ""
        lines.append(f"  c{pair[0].reactant} -> c{pair[0].product} [label={quoted(numbers_of(pair))}{both}];")
    caption = "Frames are linkage classes, shaded frames terminal strong classes; " + (
        "arrows have the numbers of their reactions." if report.network else "a report does not list the reactions.")
    return graph("complexes", caption, ['  node [shape=box, style="rounded,filled", fillcolor="white"];', *lines], str(report))


def graph(name: str, caption: str, lines: list[str], shown: str) -> str:
    """A DOT text, with the report or the document that it rests on as comments."""
    comments = "".join(f"// {line}\n" for line in shown.splitlines())
    body = "\n".join(lines)
    return f"{comments}digraph {name} {{\n  rankdir=LR; label={quoted(caption)};\n{HEAD}{body}\n}}\n"


def species_dot(report: Report) -> str:
    """The DOT text of species and reactions: an arrow to a reaction from what it consumes, and from it to what it makes."""
    network = report.network
    if network is None:
        raise NetworkNeeded("a report does not list the reactions: the picture of species and reactions needs the network")
    lines = [f"  s{k} [label={quoted(name)}, shape=ellipse, style=filled, fillcolor=\"#fef3c7\"];"
             for k, name in enumerate(network.species, 1)]
    for pair in pairs_of(network):
        name, first = f"r{pair[0].number}", pair[0]
        lines.append(f"  {name} [label={quoted(numbers_of(pair))}, shape=box, width=0.3, height=0.25, fontsize=10];")
        lines += edges(network, network.complexes[first.reactant - 1], "{species} -> " + name, len(pair) > 1)
        lines += edges(network, network.complexes[first.product - 1], name + " -> {species}", len(pair) > 1)
    caption = "Ellipses are species, boxes reactions with their numbers; amounts above 1 are at the arrows."
    return graph("species", caption, lines, str(report))


def edges(network: Network, complex_: Complex, form: str, both: bool) -> list[str]:
    made = []
    for name, amount in complex_.terms:
        marks = ([f"label={amount}"] if amount > 1 else []) + (["dir=both"] if both else [])
        edge = form.format(species=f"s{network.species.index(name) + 1}")
        made.append(f"  {edge}{f' [{chr(44).join(marks)}]' if marks else ''};")
    return made


def slope_dot(proof: Proof) -> str:
    """The DOT text of a slope that a document on endotactic networks has, of two species: the complexes at their amounts, the line
    of equal height through the reactant of the reaction that the slope falls along, and an arrow to where it is higher."""
    network = Network.of_text(proof.network)
    *_, no, numbers, _ = proof.document.splitlines()
    if proof.part != "endo" or not numbers.startswith("slope ") or len(network.species) != 2:
        raise SlopeNeeded("a slope is drawn of a document of crnt prove endo that says no, of a network of two species")
    number, slope = int(no.split(" ")[1]), [int(word) for word in numbers.split(" ")[1:]]
    at = network.amounts[network.reactions[number - 1].reactant - 1]
    long, far = math.hypot(*slope), 1 + max(max(amounts) for amounts in network.amounts)
    up = [x / long for x in slope]
    ends = {"low": (at[0] - far * up[1], at[1] + far * up[0]), "high": (at[0] + far * up[1], at[1] - far * up[0]),
            "up": (at[0] + up[0], at[1] + up[1]), "start": (at[0], at[1])}
    lines = ['  layout=neato; splines=true; outputorder=edgesfirst; size="10,10";',
             '  node [shape=box, style="rounded,filled", fillcolor="white", margin=0.04];']
    lines += [f'  c{c} [label={quoted(str(it))}, pos="{amounts[0]},{amounts[1]}!"];'
              for c, (it, amounts) in enumerate(zip(network.complexes, network.amounts), 1)]
    lines += [f'  {name} [shape=point, style=invis, pos="{x:.6f},{y:.6f}!"];' for name, (x, y) in ends.items()]
    lines += ["  low -> high [dir=none, style=dashed];", '  start -> up [color="#2b6cb0", penwidth=2];']
    for reaction in network.reactions:
        color = ', color="#c53030"' if reaction.number == number else ""
        lines.append(f'  c{reaction.reactant} -> c{reaction.product} [label="{reaction.number}"{color}];')
    caption = (f"Complexes at their amounts of {network.species[0]}, to the right, and {network.species[1]}, up. The slope, the thick "
               f"arrow, falls along reaction {number} and rises along none that begins below the dashed line.")
    return graph("slope", caption, lines, "\n".join([proof.verdict, numbers]))


def picture(dot: str, format_: str) -> bytes:
    """The picture of a DOT text, in one of `FORMATS`."""
    if format_ == "dot":
        return dot.encode("utf-8")
    program = shutil.which("dot")
    if not program:
        raise ToolMissing("pictures are made by Graphviz, whose program dot is not on the path: apt-get install graphviz; "
                          "the DOT text needs nothing")
    done = subprocess.run([program, f"-T{format_}"], input=dot.encode("utf-8"), capture_output=True, check=False)
    if done.returncode:
        raise ToolMissing(f"dot failed: {done.stderr.decode('utf-8', 'replace').strip()}")
    return done.stdout
