//! Levels of machines, in one partial order.
//!
//! A level is what programs may use: the instruction sets and extensions of a machine, a bit for each. Of two machines
//! of one kind the first is at most the second if it has no bit that the second hasn't: the second then runs what is
//! built for the first. Machines of two kinds, such as those of two byte orders, are never at most each other.
//!
//! A name is written for a triple only if the triple's level is at most that for which the tool builds: otherwise the name
//! would mean machines that don't run the program; and if it isn't less. A name that says none, as `arm`, is for all.
use crate::evidence::has_no_level;
use crate::suggestions::known_names;
use target_lexicon::{
    Architecture, ArmArchitecture, CleverArchitecture, Endianness, Field, Named as _, X86_32Architecture::I386,
};

/// An architecture, and a level of it that no triple states, such as `v3` of x86-64, or nothing.
pub(crate) type Machine<'a> = (Architecture, &'a str);

/// Whether a machine of the second level runs what is built for the first.
pub(crate) fn is_at_most(first: Machine<'_>, second: Machine<'_>) -> bool {
    let (first, second) = (level_of(first), level_of(second));
    first.0 == second.0 && first.1 & !second.1 == 0
}

/// Whether each of two machines runs what is built for the other.
pub(crate) fn is_same(first: Machine<'_>, second: Machine<'_>) -> bool {
    is_at_most(first, second) && is_at_most(second, first)
}

/// The known machine that is one of a level by itself, such as `riscv64a23` of `rva23u64`.
pub(crate) fn machine_at(machine: Machine<'_>) -> Option<Architecture> {
    let mut known = known_names(Field::Architecture).iter().filter_map(|it| it.parse().ok());
    let same = || known.find(|it| !machine.1.is_empty() && is_same((*it, ""), machine));
    machine.1.parse().ok().or_else(same)
}

/// Whether a name may be written for a machine whose row has the other: that runs what is built for the first, and
/// needs no more, if both say a level. `is_on_system` says whether it names a system.
pub(crate) fn may_have_name(machine: Machine<'_>, named: Machine<'_>, is_on_system: bool) -> bool {
    use ArmArchitecture::{Arm, Armeb, Armv5t};
    match (machine.0, named) {
        // Without its version all that have the instruction set of Arm, and not only Thumb.
        (Architecture::Arm(_), (Architecture::Arm(Arm | Armeb), "")) => level_of(machine).1 & MICRO == 0,
        (Architecture::Riscv32(_) | Architecture::Riscv64(_), (_, "")) => {
            let is_stated = level_of(named).1 != 0;
            let on_systems = (named.0, if is_stated { "" } else { "gc" });
            !is_stated && !is_on_system || is_at_most(machine, on_systems)
        }
        // `i386` is the name of its family too, and names of Armv5 mean each one.
        (Architecture::X86_32(I386), _) if machine.1.is_empty() => is_at_most(machine, named),
        (Architecture::Arm(Armv5t), _) => is_at_most(machine, named),
        (it, _) if machine.1.is_empty() && has_no_level(it) => is_at_most(machine, named),
        _ => is_at_most(machine, named) && is_at_most(named, machine),
    }
}

/// The kind of a machine, and the bits of its level.
pub(crate) fn level_of((architecture, word): Machine<'_>) -> (Architecture, u32) {
    use target_lexicon::{Riscv32Architecture as Bits32, Riscv64Architecture as Bits64, X86_32Architecture::*};
    use Architecture::*;
    let (kind, bits) = match architecture {
        // Words for x86, such as `386` and `x86`, mean either of the last two.
        X86_32(it) => (X86_32(I686), if it == I386 { 0 } else { first(2) }),
        // Haswell, which has the third level.
        X86_64h => (X86_64, first(3)),
        X86_64 => (X86_64, first(1)),
        Sparcv9 => (Sparc64, 0),
        Clever(it) => (Clever(CleverArchitecture::Clever), u32::from(it != CleverArchitecture::Clever)),
        Powerpc64le => (architecture, first(8)),
        Riscv32(_) => (Riscv32(Bits32::Riscv32), extensions(architecture.name())),
        Riscv64(Bits64::Riscv64a23) => (Riscv64(Bits64::Riscv64), first(8)),
        Riscv64(_) => (Riscv64(Bits64::Riscv64), extensions(architecture.name())),
        Arm(arm) if arm.endianness() == Endianness::Big => (Arm(ArmArchitecture::Armeb), arm_level(arm)),
        Arm(arm) => (Arm(ArmArchitecture::Arm), arm_level(arm)),
        other => (other, 0),
    };
    let number = |digits: &str| digits.parse().map_or(0, |it: u32| it.min(12));
    let version = word.strip_prefix('v');
    let (major, minor) = version.map_or(("", ""), |it| it.split_once('.').unwrap_or((it, "0")));
    let stated = match (kind, word) {
        (_, "i486") => first(1),
        (_, "pentium4") => first(3),
        (_, "athlon") => 1 << 3,
        (_, "geode") => 1 << 4,
        (Sparc, "v9") => first(1),
        // Zen has the third level, and more.
        (X86_64, "znver1") => first(3) | 1 << 8,
        (X86_64, _) => first(number(major)),
        // Armv9 has what Armv8.5 has.
        (Aarch64(_), _) if major == "9" => first(5 + number(minor)) | 1 << 16,
        (Aarch64(_), _) => first(number(minor)),
        (Arm(_), "v5") => arm_level(ArmArchitecture::Armv5te),
        (Arm(_), "v6" | "armv6") => arm_level(ArmArchitecture::Armv6),
        (Arm(_), "v7") => arm_level(ArmArchitecture::Armv7),
        (Arm(_), "v8") => arm_level(ArmArchitecture::Armv8),
        (Arm(_), "neon") => NEON,
        (Riscv32(_) | Riscv64(_), "gc" | "rva20u64") => first(6),
        (Riscv64(_), "rva22u64") => first(7),
        (Riscv64(_), "rva23u64") => first(8),
        (_, power) => power.strip_prefix("power").map_or(0, |it| first(number(it))),
    };
    (kind, bits | stated)
}

/// The bits of the first levels of a list.
const fn first(count: u32) -> u32 {
    (1 << count) - 1
}

/// The extensions that the name of a RISC-V has: those of `gc` are `imafdc`.
fn extensions(name: &str) -> u32 {
    const LETTERS: &str = "imafdc";
    let own = name.get("riscv64".len()..).unwrap_or("");
    let letters = if own == "gc" { LETTERS } else { own };
    let bits = letters.chars().filter_map(|it| LETTERS.find(it));
    bits.fold(0, |bits, at| bits | 1 << at)
}

const VE: u32 = 1 << 7;
const NEON: u32 = 1 << 14;
const VFP4: u32 = 1 << 15;
/// What is built for microcontrollers and for real-time machines isn't for others.
const MICRO: u32 = 1 << 29;
const REAL_TIME: u32 = 1 << 30;

/// The level of an Arm: each version has what the one before has. Jazelle and TrustZone are nothing that programs use.
fn arm_level(arm: ArmArchitecture) -> u32 {
    use ArmArchitecture::*;
    const V8: u32 = first(9) | NEON | VFP4;
    match arm {
        Arm | Armeb | Thumbeb | Armv4 => 0,
        Armv4t | Thumbv4t => first(1),
        Armv5t => first(2),
        Armv5te | Armv5tej | Thumbv5te => first(3),
        Armv6 | Armv6j | Armv6z => first(4),
        Armv6k | Armv6kz => first(5),
        Armv6t2 => first(4) | 1 << 5,
        Armv7 | Armv7a | Thumbv7a => first(7),
        Thumbv7neon => first(7) | NEON,
        Armv7ve => first(7) | VE,
        Armv7k | Armv7s => first(7) | VE | NEON | VFP4,
        Armv8 | Armv8a => V8,
        Armv8_1a => V8 | first(10),
        Armv8_2a => V8 | first(11),
        Armv8_3a => V8 | first(12),
        Armv8_4a => V8 | first(13),
        Armv8_5a => V8 | first(14),
        Armv6m | Thumbv6m => MICRO,
        Armv7m | Thumbv7m => MICRO | first(1),
        Thumbv7em => MICRO | first(2),
        Armv8mBase | Thumbv8mBase => MICRO | 1 << 2,
        Armv8mMain | Thumbv8mMain => MICRO | first(1) | 1 << 2,
        Armv7r | Armebv7r => REAL_TIME,
        // Armv8r, the last one.
        _ => REAL_TIME | 1,
    }
}

#[cfg(test)]
mod tests {
    extern crate std;
    use super::*;
    use std::{string::ToString as _, vec::Vec};

    fn machine(text: &str) -> Machine<'_> {
        let (name, level) = text.split_once('@').unwrap_or((text, ""));
        (name.parse().unwrap_or_else(|_| panic!("{name}")), level)
    }

    /// Between two commas each machine is at most the next one, which isn't at most it.
    const CHAINS: &str = "\
    armv4 armv4t armv5t armv5te armv6 armv6k armv7 armv7ve armv7k armv8 armv8.1a armv8.2a armv8.3a armv8.4a armv8.5a, \
    armv7 thumbv7neon armv7k, armv6 armv6t2 armv7, armv7 thumbv7neon armv8, armv7 armv7@neon armv8, \
    thumbv6m thumbv7m thumbv7em, thumbv6m thumbv8m.base thumbv8m.main, thumbv7m thumbv8m.main, armv7r armv8r, \
    armeb armebv7r, thumbeb armebv7r, arm armv4t, x86_64 x86_64@v2 x86_64@v3 x86_64@v4, \
    x86_64@v2 x86_64h x86_64@v4, x86_64@v3 x86_64@znver1, i386 i386@i486 i586 i586@pentium4, i586 i586@geode, sparc sparc@v9, aarch64 aarch64@v8.1 aarch64@v8.5 aarch64@v9 aarch64@v9.2, \
    powerpc64le powerpc64le@power9 powerpc64le@power10, powerpc64 powerpc64@power7 powerpc64@power8, \
    riscv64 riscv64imac riscv64gc riscv64@rva22u64 riscv64@rva23u64, \
    riscv32i riscv32im riscv32ima riscv32imac riscv32imafc riscv32gc";

    /// Between two commas no machine is at most another one.
    const APART: &str = "\
        thumbv7m armv7 armv7r, i686@pentium4 i686@athlon i586@geode, armv6k armv6t2, armebv7r armv7r, mips mipsel, x86_64 i686, aarch64@v8.6 aarch64@v9, \
        x86_64@v4 x86_64@znver1, thumbv8m.base thumbv7em, thumbv7em thumbv8m.main, armv7ve thumbv7neon, powerpc64 powerpc64le riscv32";

    /// Between two commas each machine is at most each other one. No machine has a higher level than some number.
    const SAME: &str = "\
        x86_64 x86_64@v1, x86_64h x86_64@v3, powerpc64le powerpc64le@power8, aarch64 aarch64@v8, \
        aarch64@v8.99 aarch64@v8.4000000000, riscv64gc riscv64@gc riscv64@rva20u64, riscv32gc riscv32@gc, \
        riscv64a23 riscv64@rva23u64, sparc64 sparcv9, i586 i686, arm armv4, armv4t thumbv4t, \
        armv5te armv5tej thumbv5te, armv6 armv6j armv6z, armv6k armv6kz, armv7 armv7a thumbv7a, armv7k armv7s, \
        armv8 armv8a, armv6m thumbv6m, armv7m thumbv7m, armv8m.base thumbv8m.base, armv8m.main thumbv8m.main";

    #[test]
    fn levels_are_in_one_partial_order() {
        for chain in CHAINS.split(", ") {
            let chain: Vec<_> = chain.split(' ').map(machine).collect();
            for (at, low) in chain.iter().enumerate() {
                for high in &chain[at + 1..] {
                    assert!(is_at_most(*low, *high), "{low:?} {high:?}");
                    assert!(!is_at_most(*high, *low), "{high:?} {low:?}");
                }
            }
        }
        let (apart, same) = (APART.split(", ").map(|it| (it, false)), SAME.split(", ").map(|it| (it, true)));
        for (machines, is_same) in apart.chain(same) {
            let machines: Vec<_> = machines.split(' ').map(machine).collect();
            for (at, one) in machines.iter().enumerate() {
                for (of, other) in machines.iter().enumerate() {
                    assert_eq!(is_at_most(*one, *other), is_same || at == of, "{one:?} {other:?}");
                }
            }
        }
        let all = known_names(Field::Architecture).iter().map(|it| machine(it));
        for (a, b, c) in all.clone().flat_map(|a| {
            let all = all.clone();
            all.clone().flat_map(move |b| all.clone().map(move |c| (a, b, c)))
        }) {
            assert!(is_at_most(a, a));
            let is_through = is_at_most(a, b) && is_at_most(b, c);
            assert!(!is_through || is_at_most(a, c), "{a:?} {b:?} {c:?}");
        }
    }

    /// Whether a name is for a machine, and after `=` machines with those of names.
    const NAMED: &str = "\
true=armv7 arm, arm armv7, armv6 arm@armv6, arm arm@armv6, riscv64gc riscv64, riscv64imac riscv64, \
    armv5t armv5te, i386 i686
false=thumbv7m arm, armv7 armv5te, armv7 arm@armv6, x86_64h x86_64, x86_64@v3 x86_64, riscv64a23 riscv64, \
    riscv64gc riscv64imac, arm@armv6 armv7, armv6 armv7, powerpc64@power7 powerpc64";

    #[test]
    fn names_are_for_machines_that_run_the_program() {
        for (expected, rows) in NAMED.lines().map(|line| line.split_once('=').unwrap()) {
            for (first, second) in rows.split(", ").map(|row| row.split_once(' ').unwrap()) {
                let may = may_have_name(machine(first), machine(second), true);
                assert_eq!(may.to_string(), expected, "{first} {second}");
            }
        }
        // Without a system a name such as `riscv64` is for all of them.
        let may = |first, second| may_have_name(machine(first), machine(second), false);
        assert!(may("riscv32imac", "riscv32") && may("riscv64a23", "riscv64"));
        assert!(!may("riscv64a23", "riscv64imac"));
    }

    /// Each target of rustc as each tool's name, and back: who runs what the names say runs the program, except that
    /// some names are for all levels of a machine, as each prefix of GNU's compilers is.
    #[test]
    fn names_keep_levels_there_and_back() {
        use crate::{CLibrary, Dialect};
        let (mut kept, mut unstated) = (0, 0);
        for target in Dialect::Rust.names() {
            let own = Dialect::Rust.sense(target).unwrap();
            let c_library = CLibrary::of(&own.triple).and_then(|it| it.to_string().parse().ok());
            for tool in Dialect::ALL {
                let Ok(name) = Dialect::Rust.translate(target, c_library, *tool) else { continue };
                let Ok(named) = tool.sense(name.as_str()) else { continue };
                let back = tool.translate(name.as_str(), c_library, Dialect::Rust).ok();
                let back = back.map(|it| Dialect::Rust.sense(it.as_str()).unwrap());
                let machines = [Some(own), Some(named), back].map(|it| it.map(|it| (it.triple.architecture, it.level)));
                let needs_no_more = is_at_most(machines[1].unwrap(), machines[0].unwrap());
                assert!(needs_no_more || *tool == Dialect::Gnu, "{target} {tool} {name} {machines:?}");
                let is_kept = |pair: &[Option<Machine<'_>>]| match *pair {
                    [Some(first), Some(second)] => is_at_most(first, second),
                    _ => true,
                };
                if machines.windows(2).all(is_kept) {
                    kept += 1;
                    continue;
                }
                let has_level = !named.level.is_empty() || !has_no_level(named.triple.architecture);
                assert!(!has_level || *tool == Dialect::Gnu, "{target} {tool} {name} {machines:?}");
                unstated += 1;
            }
        }
        assert!(kept > 900 && unstated < 170, "{kept} {unstated}");
    }
}
