//! The modes of lines.rs over the Rust crate of this repository.
extern crate ours as target_lexicon;
mod lines;

use ours::TripleExt as _;

fn main() -> std::io::Result<()> {
    lines::answer(|triple| triple.settle().ok())
}
