//! The modes of lines.rs over upstream's crate, which has no canonical form.
extern crate upstream as target_lexicon;
mod lines;

fn main() -> std::io::Result<()> {
    lines::answer(|_| None)
}
