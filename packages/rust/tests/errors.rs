//! What errors show, and that it fails as its writer does.
use std::fmt::{self, Display, Write};
use target_lexicon::{NotPlain, Triple, TripleExt as _, TripleRef};

/// A writer with room for so many bytes.
struct Room(usize);

impl Write for Room {
    fn write_str(&mut self, text: &str) -> fmt::Result {
        self.0 = self.0.checked_sub(text.len()).ok_or(fmt::Error)?;
        Ok(())
    }
}

#[test]
fn errors_fail_as_their_writers_do() {
    let fails = |it: &dyn Display| {
        let whole = it.to_string();
        assert!((0..whole.len()).all(|room| write!(Room(room), "{it}").is_err()), "{whole}");
        assert!(write!(Room(whole.len()), "{it}").is_ok());
        let picture = format!("{it:#}");
        assert!((0..picture.len()).all(|room| write!(Room(room), "{it:#}").is_err()), "{picture}");
    };
    for text in ["x86_64-\u{e9}-linux", "x86_64-", "foo", "avr-linux-foo"] {
        fails(&Triple::parse(text).unwrap_err());
        fails(&text.parse::<Triple>().unwrap_err());
        fails(&TripleRef::from_str(text).unwrap_err());
    }
    fails(&NotPlain(Triple::unknown()));
}

#[test]
fn an_empty_part_has_a_caret() {
    let error = Triple::parse("x86_64-").unwrap_err();
    assert_eq!(format!("{error:#}"), "Unrecognized vendor: \n  x86_64-\n         ^");
    assert_eq!(error.to_string(), "Unrecognized vendor:  (in x86_64-)");
    assert_eq!(Triple::parse("foo").unwrap_err().to_string(), "Unrecognized architecture: foo");
    let long = "A".repeat(70_000);
    let lines = ["Unrecognized architecture: ", "\n  ", "\n  "].concat().len();
    assert_eq!(format!("{:#}", Triple::parse(&long).unwrap_err()).len(), lines + 3 * long.len());
}
