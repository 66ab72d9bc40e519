"""Takes figures of the program, a table for each section; bench.sh says how it is called."""
import argparse

import definitions
import functions
import loops
import measure
import sessions

SECTIONS = {section.__name__: section for section in (
    definitions.definitions, definitions.checks, definitions.inputs, definitions.traces, definitions.histories, definitions.resubmissions,
    loops.loops, loops.kinds, loops.data, loops.steps, sessions.sessions,
    functions.texts, functions.functions, functions.lists, functions.times, functions.templates)}


def main():
    sections = "\n".join("  %s: %s" % (name, " ".join(section.__doc__.split())) for name, section in SECTIONS.items())
    parser = argparse.ArgumentParser(description=__doc__, epilog=sections, formatter_class=argparse.RawDescriptionHelpFormatter)
    parser.add_argument("--cpu", action="store_true", help="the processor's time in the place of the wall clock")
    parser.add_argument("sections", nargs="*", metavar="SECTION", help="one of those below; all of them where none is named")
    words = parser.parse_args()
    for name in words.sections:
        if name not in SECTIONS:
            parser.error("there is no section %s" % name)
    measure.BY_PROCESSOR = words.cpu
    program = measure.program()
    for name in words.sections or SECTIONS:
        SECTIONS[name](program)


if __name__ == "__main__":
    main()
