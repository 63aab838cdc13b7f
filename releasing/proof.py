"""The file PROOF: of what the files of a release were made, what the prover said, and how to make the same bytes again."""

import json
import os
import textwrap

from .compiling import sum_of, sum_of_sources
from .files import TOP

SUM = "find crates/CRATE/{src,specs,proofs} -type f | LC_ALL=C sort | xargs sha256sum | sha256sum"
MODULE = f"{TOP}/tools/cgrlist/engine/module.json"


def said(title, record):
    """What the prover said of a crate."""
    return "\n".join([title, *(f"    {it}" for it in [record["verdict"], *record["axioms"]])])


def crates_of(records):
    """A line for each crate below: how many functions are proved, and the sum of its sources."""
    functions = {}
    for record in records:
        functions.update(record["functions"])
    return "\n".join(f"    {crate:15}{functions[crate]:5}  {sum_of_sources(crate)}" for crate in sorted(functions))


def module():
    """What the record of the page's module says."""
    with open(MODULE, encoding="utf-8") as file:
        return json.load(file)


def text(release, kit, compiled, linked, found):
    """The text of PROOF."""
    program, libraries = compiled[0], compiled[1:]
    of_module = module()
    parts = [
        f"cgrlist {release.version}\ncommit {release.commit}{''.join(f', and {it}: a draft' for it in found)}\nprover {kit.version}",
        textwrap.fill(
            "Each function of these crates meets its contract. The prover checked it, and compiled what it had checked. What the contracts "
            "say is in docs/proved.md of that commit, and what has to be trusted besides. A line has a crate, the number of its functions, "
            "and the sum of its sources, which this command prints:", 100) + f"\n    {SUM}",
        crates_of([it.record() for it in compiled]),
        *(said(f"{it.crate} for {it.target}, sources {sum_of_sources(it.crate)}", it.record()) for it in compiled),
        said(f"webcgrlist for the page, sources {of_module['sources']}, prover {of_module['kit']}", of_module),
        "Objects that were linked:\n" + "\n".join(f"    {sum_of(it)}  {os.path.basename(it)}" for it in [
            program.path, *(it.path for it in libraries), *kit.archives]) + f"\n    {of_module['module']}  cgrlist.wasm",
        textwrap.fill(
            "The program was linked statically by the system's compiler, with its C library, and the C library cgrlist by library/build. "
            "No proof covers these:", 100) + "\n" + "\n".join(f"    {name}: {value}" for name, value in linked.items()),
        f"The same bytes again, in a clone, with this prover and these linkers:\n    git checkout {release.commit}\n    ./release{' --arm' if len(libraries) > 1 else ''}"
        "\n    cd dist && sha256sum --check PLACE/SHA256SUMS",
    ]
    return "\n\n".join(parts) + "\n"
