#!/usr/bin/env python3
"""Writes Opened.antt of format_tests and of pulse_tests: one name under which every definition of `format`, or of `pulse_laws`, unfolds.

Run it after a definition is added to one of these crates, renamed or removed."""
import os, re

top = os.path.join(os.path.dirname(os.path.abspath(__file__)), "..", "crates")


def modules(specs, path):
    """The modules below a Lib or a folder's file, in the order of their `pub mod` lines."""
    for mod in re.findall(r"^pub mod (\w+)", open(os.path.join(specs, *path[:-1], path[-1] + ".antt")).read(), re.M):
        below = (path if path != ("Lib",) else ()) + (mod,)
        if os.path.isdir(os.path.join(specs, *below)):
            yield from modules(specs, below)
        else:
            yield below


def write(crate, tests, name, lead):
    specs = os.path.join(top, crate, "specs")
    uses, opened = [], []
    for mod in modules(specs, ("Lib",)):
        text = open(os.path.join(specs, *mod) + ".antt").read()
        found = re.findall(r"^unfoldable pub (\S+)", text, re.M)
        if found:
            items = ", ".join("%s as %s·%s" % (n, "·".join(mod), n) for n in found)
            uses.append("use Rattle.%s.specs.%s.{%s}" % (crate, ".".join(mod), items))
            opened += ["%s·%s" % ("·".join(mod), n) for n in found]
    lines = [lead, "-- Written by tools/opened.py."]
    lines += uses + ["", "unfoldable pub %s : Unit {0}" % name, "unfolding " + " ".join(opened), name + " = tt", ""]
    open(os.path.join(top, tests, "specs", "Opened.antt"), "w").write("\n".join(lines))


write("format", "format_tests", "opened", "-- Every definition of `format`, opened at once: a theorem that computes says `unfolding opened`.")
write("pulse_laws", "pulse_tests", "opened_pulse", "-- Every definition of `pulse_laws`, opened at once.")
