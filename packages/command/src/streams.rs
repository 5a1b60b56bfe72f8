//! The standard streams as a program gets them.
//!
//! Rust's runtime opens `/dev/null` for one that is closed, and its own streams take a failure as a success where a
//! descriptor isn't open for what is done: then nobody gets what was written, and nobody knows.

use std::fs::File;
use std::io::{self, Read};
use std::path::Path;

/// What is read.
pub struct Input {
    pub reader: Box<dyn Read>,
    /// It is a file to which an output goes too, so that what is written is read again.
    pub is_output: bool,
}

pub fn file(path: &Path) -> io::Result<Input> {
    Ok(of_file(File::open(path)?))
}

fn of_file(file: File) -> Input {
    Input { is_output: system::is_output(&file), reader: Box::new(file) }
}

pub use system::{standard_error, standard_input, standard_output};

#[cfg(unix)]
mod system {
    use super::{at_start, of_file, Input};
    use std::fs::File;
    use std::io::{self, Write};
    use std::os::unix::fs::MetadataExt;
    use std::os::unix::io::AsFd;

    /// The error of a descriptor that isn't open, `EBADF`.
    const NOT_OPEN: i32 = 9;

    /// A standard stream as a file, which hides no failure.
    fn stream(descriptor: usize, stream: impl AsFd) -> io::Result<File> {
        if at_start::was_closed(descriptor) {
            return Err(io::Error::from_raw_os_error(NOT_OPEN));
        }
        Ok(stream.as_fd().try_clone_to_owned()?.into())
    }

    pub fn standard_input() -> io::Result<Input> {
        stream(0, io::stdin()).map(of_file)
    }

    /// A standard stream, without a buffer. If it is closed, a write fails, as one to a file that is open for reading
    /// does.
    fn output(descriptor: usize, of: impl AsFd + Write + 'static) -> Box<dyn Write> {
        match stream(descriptor, &of).or_else(|_| File::open("/dev/null")) {
            Ok(file) => Box::new(file),
            Err(_) => Box::new(of),
        }
    }

    pub fn standard_output() -> Box<dyn Write> {
        output(1, io::stdout())
    }

    pub fn standard_error() -> Box<dyn Write> {
        output(2, io::stderr())
    }

    /// Whether a file is the one to which standard output or standard error goes.
    pub fn is_output(file: &File) -> bool {
        let of = |file: File| {
            let it = file.metadata().ok()?;
            it.is_file().then(|| (it.dev(), it.ino()))
        };
        let input = file.try_clone().ok().and_then(of);
        let outputs = [stream(1, io::stdout()), stream(2, io::stderr())];
        input.is_some() && outputs.into_iter().any(|it| it.ok().and_then(of) == input)
    }
}

#[cfg(not(unix))]
mod system {
    use super::Input;
    use std::fs::File;
    use std::io::{self, Write};

    pub fn standard_input() -> io::Result<Input> {
        Ok(Input { is_output: false, reader: Box::new(io::stdin()) })
    }

    pub fn standard_output() -> Box<dyn Write> {
        Box::new(io::stdout())
    }

    pub fn standard_error() -> Box<dyn Write> {
        Box::new(io::stderr())
    }

    pub fn is_output(_: &File) -> bool {
        false
    }
}

/// Which streams were closed before the runtime started: what is in the section named here is called then.
#[cfg(unix)]
#[allow(unsafe_code)]
mod at_start {
    use std::sync::atomic::{AtomicUsize, Ordering};

    /// A bit for each descriptor.
    static CLOSED: AtomicUsize = AtomicUsize::new(0);

    pub fn was_closed(descriptor: usize) -> bool {
        CLOSED.load(Ordering::Relaxed) >> descriptor & 1 == 1
    }

    extern "C" {
        fn fcntl(descriptor: i32, command: i32, ...) -> i32;
    }

    const F_GETFD: i32 = 1;

    extern "C" fn look() {
        for descriptor in 0..3 {
            // SAFETY: it asks for the flags of a descriptor, which needn't be open, and takes no pointer.
            if unsafe { fcntl(descriptor, F_GETFD) } == -1 {
                CLOSED.fetch_or(1 << descriptor, Ordering::Relaxed);
            }
        }
    }

    #[used]
    #[cfg_attr(target_vendor = "apple", link_section = "__DATA,__mod_init_func")]
    #[cfg_attr(not(target_vendor = "apple"), link_section = ".init_array")]
    static LOOK: extern "C" fn() = look;
}
