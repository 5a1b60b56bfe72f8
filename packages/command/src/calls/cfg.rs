//! `cfg`: the values of rustc's cfg options.
use super::*;
use target_lexicon::{Endianness, Named as _, PointerWidth};

pub fn command() -> Command {
    of_targets(
        "cfg",
        "Write the values of rustc's cfg options for a target",
        "Example:\n  $ target-lexicon cfg aarch64-apple-ios",
    )
}

#[derive(Default)]
pub struct Cfg {
    has_answered: bool,
}

impl Call for Cfg {
    fn answer<'a>(&mut self, target: Target<'a>, reader: &Reader) -> Outcome<'a> {
        let (triple, _) = reader.meaning(target.text)?;
        let follows_another = std::mem::replace(&mut self.has_answered, true);
        Ok(Options { triple, follows_another }.into())
    }
}

struct Options<'a> {
    triple: TripleRef<'a>,
    follows_another: bool,
}

impl Answer for Options<'_> {
    fn write(&self, page: &mut Page<'_>) -> io::Result<()> {
        show!(page, if self.follows_another { "\n" } else { "" }, self.triple.rustc_cfg())
    }

    fn members(&self) -> Object<'_> {
        let cfg = self.triple.rustc_cfg();
        let families = cfg.target_family.iter().map(|family| Json::from(*family));
        vec![
            ("target_arch", cfg.target_arch.into()),
            ("target_os", cfg.target_os.into()),
            ("target_env", cfg.target_env.into()),
            ("target_abi", cfg.target_abi.into()),
            ("target_family", Json::List(families.collect())),
            ("target_vendor", cfg.target_vendor.into()),
            ("target_pointer_width", cfg.target_pointer_width.map(PointerWidth::bits).into()),
            ("target_endian", cfg.target_endian.map(Endianness::name).into()),
        ]
    }
}
