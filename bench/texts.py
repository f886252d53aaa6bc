"""The traces and texts that are measured, as files."""
import concurrent.futures
import os

import generate
import hostile
from timed import INPUTS


def path_of(text):
    return os.path.join(INPUTS, "-".join(map(str, text)).replace(" ", "_") + ".jsonl")


def make_input(text):
    shape, variant, f, seed = text
    if variant == "hostile":
        written, about = hostile.make(shape, f, 1, seed)
    else:
        written, about = generate.make(shape, variant, f, 1, seed)
    with open(path_of(text[:3]), "w") as file:
        file.write(written)
    return text[:3], about


def make_group(texts):
    return [make_input(text) for text in texts]


def make_inputs(rows, seed):
    """The inputs, by two processes. Hostile texts of one shape are made by the same one, which makes them once."""
    os.makedirs(INPUTS, exist_ok=True)
    groups = {}
    for text in dict.fromkeys((*row[:3], seed) for row in rows):
        groups.setdefault(text[:2] if text[1] == "hostile" else text, []).append(text)
    with concurrent.futures.ProcessPoolExecutor(2) as pool:
        return dict(each for group in pool.map(make_group, groups.values()) for each in group)
