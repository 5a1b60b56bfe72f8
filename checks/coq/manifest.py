"""That nothing beside the source decides what cargo compiles of packages/rust."""
import hashlib
import re

from reading import Untranslated

# The files as they were read, of the manifest what isn't a comment, or a text or a list of texts about the package.
READ = {"build.rs": "61d89edb9d2287e44cacc19e96845b93ea28beefaa2eb1f576504136010c5c53",
        "Cargo.toml": "54c9bf6d598ac3031179f0588023f31f8d13fffb2cbb4f09b102f764ea1f0142"}
TEXT = r'"[^"\\\n]*"'
ABOUT = "(?:authors|categories|description|documentation|include|keywords|license|name|readme|repository|" \
    rf"rust-version|version) = (?:{TEXT}|\[(?:{TEXT}(?:, )?)*\])\n"
SETTINGS = ".cargo", "rust-toolchain", "rust-toolchain.toml"


def check_manifest(root):
    for it in (of / name for of in (root, root / "packages", root / "packages/rust") for name in SETTINGS):
        if it.exists():
            raise Untranslated(f"{it} has settings of cargo")
    for name, expected in READ.items():
        text = root.joinpath("packages/rust", name).read_bytes().decode()
        if name == "Cargo.toml":
            lines = "".join(re.findall(r"^[^#\n].*\n?", text, re.M))
            package, *others = re.split(r"^(?=\[package\.)", lines, flags=re.M)
            text = "".join([re.sub(f"^{ABOUT}", "", package, flags=re.M), *others])
        if hashlib.sha256(text.encode()).hexdigest() != expected:
            raise Untranslated(f"packages/rust/{name} isn't the file that was read")
