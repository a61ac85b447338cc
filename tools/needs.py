"""What a proof knows at each goal of a function, from what a check says of its holes (rt check --start CRATE::FUNCTION --allow-holes)."""
import re
import sys

from repository import Copy, listed_crates, texts_of

GOAL = re.compile(r'goal \? in `(\S+)`\n((?: .*\n)*)')
STEP = re.compile(r'^    (c[^\s:]*): (.*)$', re.M)
FIELD = re.compile(r'^    (c\.\S+) : (.*)$', re.M)


def fields_in(text):
    """The fields of a step, as in `.s {.ref_ptr, .now}, .at`."""
    for name, inside in re.findall(r'(\.[^\s,{}]+)(?: \{([^}]*)\})?', text):
        yield name
        yield from (name + field for field in re.findall(r'\.[^\s,{}]+', inside))


def known_at_goals(said):
    """For each goal what is to be shown, and what is known there: each path, as a proof writes it, with its type where the check says it."""
    known = {}
    for goal, text in GOAL.findall(said):
        types, steps = dict(FIELD.findall(text)), {}
        for step, fields in STEP.findall(text):
            same = re.fullmatch(r'same as (\S+)', fields)
            steps[step] = steps.get(same.group(1), []) if same else list(fields_in(fields))
        shown = re.search(r'^  ⊢ (.*)$', text, re.M)
        known[goal] = shown.group(1) if shown else '', {step + field: types.get(step + field, '') for step, fields in steps.items() for field in fields}
    return known


def goals_of(room, crate, function):
    """What is known at each goal that a function has where it has no answers, from a check in a copy that is made in the folder `room`."""
    if crate not in listed_crates():
        sys.exit(f'crates.txt lists no crate {crate}')
    copy, answers = Copy(room), f'proofs/{function}/Answers.antt'
    (copy.folder / 'crates' / crate / answers).unlink(missing_ok=True)
    texts = {file: text for file, text in texts_of(crate).items() if file != answers}
    said = copy.check(crate, texts, '--start', '::'.join([crate, *function.split('/')]), '--allow-holes')
    return known_at_goals(said) or sys.exit(f'{crate}: {function} has no goals, or it was not checked:\n{said}')


def path_to(name, places):
    """The path to what is bound under a name, the last one that ends in it; None where nothing is."""
    return next((path for path in reversed(places) if path.endswith(f'.{name}')), None)
