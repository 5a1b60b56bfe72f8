//! The line modes of the program `triples`, `print`, `show`, `settle` and `matrix`, over one of the crates; and
//! `parse`, which writes only how many lines parse.
use std::collections::HashSet;
use std::fmt::Write as _;
use std::io::{self, Read, Write as _};
use target_lexicon::Triple;

// The words of mode `show`: for no answer, and in the order of the variants.
const ORDERS: &[&str; 3] = &["-", "little", "big"];
const WIDTHS: &[&str; 4] = &["-", "16", "32", "64"];
const CONVENTIONS: &[&str; 5] = &["-", "SystemV", "WasmBasicCAbi", "WindowsFastcall", "AppleAarch64"];
const MODELS: &[&str; 6] = &["-", "LP32", "ILP32", "LLP64", "LP64", "ILP64"];

fn add_answers(output: &mut String, triple: &Triple) {
    let order = ORDERS[triple.endianness().map_or(0, |order| order as usize + 1)];
    let width = WIDTHS[triple.pointer_width().map_or(0, |width| width as usize + 1)];
    let convention = CONVENTIONS[triple.default_calling_convention().map_or(0, |convention| convention as usize + 1)];
    let model = MODELS[triple.data_model().map_or(0, |model| model as usize + 1)];
    for word in [order, width, convention, model] {
        output.push(' ');
        output.push_str(word);
    }
}

/// Answers the lines of standard input in the mode that is the first argument, or in mode `print`. `canonical` returns
/// a triple's canonical form.
pub fn answer(canonical: impl Fn(Triple) -> Option<Triple>) -> io::Result<()> {
    let mode = std::env::args().nth(1).unwrap_or_else(|| "print".to_string());
    let mut input = String::new();
    io::stdin().read_to_string(&mut input)?;
    let lines: Vec<&str> = input.split_terminator('\n').collect();
    if mode == "parse" {
        println!("{}", lines.iter().filter(|line| line.parse::<Triple>().is_ok()).count());
        return Ok(());
    }
    let print = |output: &mut String, triple: &Triple| write!(output, "{triple}").expect("memory");
    let (mut output, mut seen) = (String::with_capacity(input.len() + 16), HashSet::new());
    for line in lines {
        match (mode.as_str(), line.parse::<Triple>()) {
            (_, Err(error)) => write!(output, "error: {error}").expect("memory"),
            ("print", Ok(triple)) => print(&mut output, &triple),
            ("show", Ok(triple)) => {
                print(&mut output, &triple);
                add_answers(&mut output, &triple);
            }
            ("settle" | "matrix", Ok(triple)) => match canonical(triple) {
                None => output.push_str("does not settle"),
                Some(triple) if mode == "settle" => print(&mut output, &triple),
                Some(triple) if seen.contains(&triple) => continue,
                Some(triple) => {
                    print(&mut output, &triple);
                    seen.insert(triple);
                }
            },
            _ => panic!("no mode {mode}"),
        }
        output.push('\n');
    }
    io::stdout().write_all(output.as_bytes())
}
