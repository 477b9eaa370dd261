"""Which program a seed makes."""

import importlib.metadata
import importlib.util
import random

import array_programs
import bounded_programs
import damage_programs
import far_programs
import list_programs
import metadata_programs
import store_programs
import whole_programs

# Each program, and how often it comes.
PROGRAMS = {
    "whole": (whole_programs.whole, 10),
    "parts": (whole_programs.parts, 20),
    "writes": (whole_programs.writes, 15),
    "lists": (list_programs.lists, 4),
    "mixed": (list_programs.mixed, 4),
    "wrong-elements": (list_programs.wrong_elements, 4),
    "arrays": (array_programs.arrays, 20),
    "created": (array_programs.created, 4),
    "threads": (array_programs.threads, 4),
    "writers": (array_programs.writers, 4),
    "metadata": (metadata_programs.metadata, 8),
    "lists-of-codecs": (metadata_programs.lists_of_codecs, 4),
    "far": (far_programs.far, 3),
    "rewritten": (far_programs.rewritten, 4),
    "wrong-indices": (array_programs.wrong_indices, 8),
    "stores": (store_programs.stores, 10),
    "broken-stores": (store_programs.broken_stores, 5),
    "replaced": (store_programs.replaced, 8),
    "young": (store_programs.young, 4),
    "attributes": (store_programs.attributes, 3),
    "empties": (bounded_programs.empties, 3),
    "steps": (bounded_programs.steps, 2),
    "damaged-shards": (bounded_programs.damaged_shards, 2),
    "long-lists": (bounded_programs.long_lists, 2),
    "sizes": (bounded_programs.sizes, 2),
    "bombs": (bounded_programs.bombs, 2),
    "many-chunks": (bounded_programs.many_chunks, 1),
    "damaged": (damage_programs.damaged, 15),
    "broken-files": (damage_programs.broken_files, 5),
}
if importlib.util.find_spec("zarr") and int(importlib.metadata.version("zarr").split(".")[0]) >= 3:
    import pipeline_programs

    PROGRAMS["pipeline"] = (pipeline_programs.pipeline, 10)


def chosen_of(names):
    """The call that chooses the program of a seed, among those of these names, or all."""
    among = {name: PROGRAMS[name] for name in names or PROGRAMS}

    def chosen(seed):
        # by another source than the program's own choices
        name = random.Random(f"program {seed}").choices(list(among), [weight for _, weight in among.values()])[0]
        return name, among[name][0]

    return chosen
