//! Writes `targets.csv`: each triple that a name means, also with each C library that it may have, and what each tool calls it. `tools/write` runs it.
use std::collections::BTreeMap;
use target_lexicon::{Environment, OperatingSystem, TripleRef};
use target_names::{ChosenLibc, Dialect, TargetInfo};

/// A triple, and the same with each C library that names may leave out.
fn completed(triple: TripleRef<'static>) -> impl Iterator<Item = TripleRef<'static>> {
    let libraries: &[ChosenLibc] = match (triple.operating_system, triple.environment) {
        (OperatingSystem::Linux, Environment::Unknown) => &[ChosenLibc::Glibc, ChosenLibc::Musl],
        (OperatingSystem::Windows, Environment::Unknown) => &[ChosenLibc::Msvc, ChosenLibc::Mingw],
        _ => &[],
    };
    let with = libraries.iter().map(move |it| triple.with_c_library(*it));
    std::iter::once(triple).chain(with)
}

/// The lines of `targets.csv`.
pub fn lines() -> Vec<String> {
    // The names of the table without a version, whose triples have a known vendor.
    let rows = include_str!("../names.csv").lines();
    let names = rows.filter_map(|line| {
        let mut cells = line.split(',');
        let (tool, name) = (cells.next()?.parse::<Dialect>().ok()?, cells.next()?);
        let triple = tool.read(name).ok().filter(|it| !it.vendor.is_custom())?;
        Some((tool, name, triple))
    });
    let mut targets = BTreeMap::<String, (TripleRef<'static>, Vec<(Dialect, &str)>)>::new();
    for (tool, name, triple) in names {
        for target in completed(triple) {
            let row = targets.entry(target.to_string());
            row.or_insert((target, Vec::new())).1.push((tool, name));
        }
    }
    let head = "target machine pointer_width byte_order system c_library float_abi";
    let tools = Dialect::ALL.iter().map(|it| it.name());
    let head: Vec<_> = head.split(' ').chain(tools).chain(["only_read"]).collect();
    let mut lines = vec![head.join(",")];
    for (target, (triple, names)) in targets {
        let mut row = vec![
            target,
            triple.architecture.to_string(),
            triple.pointer_width().map_or(String::new(), |it| it.bits().to_string()),
            triple.endianness().map_or(String::new(), |it| format!("{it:?}").to_lowercase()),
            triple.operating_system.to_string(),
            triple.c_library().map_or("", |it| it.name()).to_string(),
            triple.float_abi().map_or("", |it| it.name()).to_string(),
        ];
        let mut only_read = Vec::new();
        for tool in Dialect::ALL {
            let first = names.iter().find(|it| it.0 == *tool).map(|it| it.1.to_string());
            let written = tool.write(triple).map(|it| it.to_string());
            if written.is_none() && first.is_some() {
                only_read.push(tool.name());
            }
            row.push(written.or(first).unwrap_or_default());
        }
        row.push(only_read.join(" "));
        lines.push(row.join(","));
    }
    lines
}

fn main() {
    lines().iter().for_each(|it| println!("{it}"));
}
