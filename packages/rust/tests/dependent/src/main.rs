//! A program as people write it over upstream's crate. `[patch.crates-io]` changes which crate it gets.
#![deny(warnings)]
use std::collections::hash_map::DefaultHasher;
use std::hash::{Hash, Hasher};
use target_lexicon::{Triple, HOST};

fn main() {
    for text in std::env::args().skip(1) {
        match text.parse::<Triple>() {
            Ok(it) => {
                let mut hasher = DefaultHasher::new();
                it.hash(&mut hasher);
                println!("{it} {it:?} {:x} {}", hasher.finish(), serde_json::to_string(&it).expect("JSON"));
                println!("{:?} {:?} {:?}", it.endianness(), it.pointer_width(), it.data_model());
            }
            Err(error) => println!("{error} {error:?}"),
        }
    }
    println!("{HOST}");
}
