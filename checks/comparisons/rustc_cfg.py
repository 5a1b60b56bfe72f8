"""Compares the values of rustc's cfg options that the Rust crate gives with those that `rustc --print cfg` prints."""
import concurrent.futures
import re

import built
from comparisons.tools import output

KEYS = ("arch", "os", "env", "abi", "family", "vendor", "pointer_width", "endian")


def options(text):
    """The values of each key, and the families that are options themselves."""
    values = {key: sorted(re.findall(f'^target_{key}="(.*)"$', text, re.M)) for key in KEYS}
    return {**values, "name of a family": re.findall("^(unix|windows)$", text, re.M)}


def check(report):
    targets = output("rustc", "--print", "target-list").split()
    if not report.has("rustc", targets):
        return
    program = built.cargo_program("compare", "lines", 2)
    texts = output(program, "cfg", input="".join(f"{target}\n" for target in targets)).split("\n\n")[:-1]
    ours = {target: options(text) for target, text in zip(targets, texts, strict=True)
            if not text.startswith("error: ")}
    with concurrent.futures.ThreadPoolExecutor() as pool:
        said = pool.map(lambda target: options(output("rustc", "--print", "cfg", "--target", target)), ours)
    theirs = dict(zip(ours, said))
    for key in (*KEYS, "name of a family"):
        report.fact(f"{key} is that of `rustc --print cfg`",
                    ((target, it[key], theirs[target][key]) for target, it in ours.items()))
