//! A run of a call: it answers for each target.
use crate::calls::{Answer, Answered, Call};
use crate::fault::Fault;
use crate::help::Helper;
use crate::input::{each_target, end_of_line, keeps_lines, Answers, Target};
use crate::json::Json;
use crate::output::Outputs;
use crate::progress::{with_commas, Progress};
use crate::reader::Reader;
use crate::refusal::Refusal;
use crate::shown::show;
use clap::ArgMatches;
use std::ffi::OsString;
use std::num::NonZeroUsize;

pub struct Run<'a> {
    call: &'a mut dyn Call,
    reader: Reader,
    helper: Helper,
    outputs: Outputs,
    progress: Progress,
    /// The status for what can't be read, or 0.
    unread: i32,
    is_quiet: bool,
    end_of_line: u8,
    keeps_lines: bool,
    /// How many targets are refused at most, before the run ends.
    max_errors: Option<NonZeroUsize>,
}

impl Answers for Run<'_> {
    fn answer(&mut self, target: Target<'_>) -> Result<(), Fault> {
        self.progress.targets += 1;
        match self.call.answer(target, &self.reader) {
            Ok(_) if self.is_quiet => Ok(()),
            Err(_) if self.is_quiet => Err(Fault::Refused),
            Ok(Answered { answer, warning: Some(warning) }) => self.warn(target, &warning, answer.as_deref()),
            Ok(Answered { answer, .. }) => answer.map_or(Ok(()), |it| self.write(target, &*it)),
            Err(refusal) => self.refuse(target, &refusal),
        }
    }

    fn refuse_bytes(&mut self, target: Target<'_>, start: usize) -> Result<(), Fault> {
        self.progress.targets += 1;
        if self.is_quiet {
            return Err(Fault::Refused);
        }
        self.refuse(target, &Refusal::not_utf8(target.text, start))
    }

    fn skip_line(&mut self) -> Result<(), Fault> {
        if !self.keeps_lines {
            return Ok(());
        }
        let end = self.end_of_line;
        self.outputs.write(|page| page.put(if end == 0 { "\0" } else { "\n" }))
    }

    fn skip_binary(&mut self) {
        self.progress.binary += 1;
    }

    fn skip_unread(&mut self, fault: Fault) -> Result<(), Fault> {
        self.outputs.flush()?;
        self.unread = fault.report();
        Ok(())
    }

    fn pause(&mut self) -> Result<(), Fault> {
        self.outputs.flush()?;
        self.progress.show()
    }
}

impl<'a> Run<'a> {
    pub fn new(call: &'a mut dyn Call, arguments: &ArgMatches) -> Self {
        let reader = Reader::new(arguments);
        Run {
            helper: Helper::new(call, &reader, arguments),
            call,
            reader,
            outputs: Outputs::new(arguments),
            progress: Progress::new(),
            unread: 0,
            is_quiet: arguments.get_flag("quiet"),
            end_of_line: end_of_line(arguments),
            keeps_lines: keeps_lines(arguments),
            max_errors: arguments.get_one("max-errors").copied(),
        }
    }

    fn write(&mut self, target: Target<'_>, answer: &dyn Answer) -> Result<(), Fault> {
        if self.outputs.has_objects() {
            let mut members = target.members();
            members.extend(answer.members());
            return self.outputs.object(members);
        }
        self.outputs.answer(self.end_of_line, |page| answer.write(page))
    }

    /// Shows a warning before the answer; in an object, it is the last member.
    fn warn(&mut self, target: Target<'_>, warning: &Refusal<'_>, answer: Option<&dyn Answer>) -> Result<(), Fault> {
        if self.outputs.has_objects() && self.call.has_refused_objects() {
            let help = self.helper.help(target, warning);
            let mut members = target.members();
            members.extend(answer.map(Answer::members).unwrap_or_default());
            members.push(("warning", Json::Object(warning.members(&help))));
            return self.outputs.object(members);
        }
        self.show(target, warning)?;
        answer.map_or(Ok(()), |it| self.write(target, it))
    }

    /// Shows a refusal or a warning on standard error.
    fn show(&mut self, target: Target<'_>, refusal: &Refusal<'_>) -> Result<(), Fault> {
        let help = self.helper.help(target, refusal);
        if self.outputs.has_annotations() {
            return self.outputs.write(|page| refusal.annotate(page, target, &help));
        }
        self.outputs.refuse(|page, has_color| refusal.write(page, target, has_color, &help))
    }

    fn refuse(&mut self, target: Target<'_>, refusal: &Refusal<'_>) -> Result<(), Fault> {
        self.progress.refused += 1;
        self.progress.phrases += usize::from(target.text.trim().contains(' '));
        if self.outputs.has_objects() && self.call.has_refused_objects() {
            let help = self.helper.help(target, refusal);
            let mut members = target.members();
            members.extend(refusal.members(&help));
            self.outputs.object(members)?;
        }
        self.show(target, refusal)?;
        if !self.outputs.has_objects() {
            self.skip_line()?;
        }
        match self.max_errors {
            Some(count) if self.progress.refused >= count.get() => Err(Fault::Refused),
            _ => Ok(()),
        }
    }

    /// Answers for all targets. Returns the status.
    pub fn finish(mut self, arguments: &ArgMatches) -> Result<i32, Fault> {
        if let Err(fault) = each_target(arguments, &mut self) {
            // What was answered is whole; if it can't be written either, the first fault is the one to show.
            let _ = self.call.end(&mut self.outputs, false);
            let _ = self.summarize(matches!(fault, Fault::Refused));
            return Err(fault);
        }
        let is_refused = self.progress.refused > 0;
        self.call.end(&mut self.outputs, !is_refused && self.unread == 0 && !self.is_quiet)?;
        let has_text = arguments.get_many::<OsString>("target").unwrap_or_default().any(|it| it != "-");
        let Progress { targets, phrases, .. } = self.progress;
        let none = if has_text { "no targets found; `-f FILE` takes each line as one" } else { "no targets read" };
        let lines = "each line of standard input or `-f` is a target; in other files, or /dev/stdin, they are found";
        let is_text = (arguments.contains_id("file") || !has_text) && 2 * phrases > targets;
        self.note(if targets == 0 { Some(none) } else { is_text.then_some(lines) })?;
        self.summarize(false)?;
        Ok(self.unread.max(i32::from(is_refused)))
    }

    /// Says what is said of the input, what wasn't understood or read, and whether each answer is the same without the C
    /// library that is said.
    fn note(&mut self, of_input: Option<&str>) -> Result<(), Fault> {
        let has_answer = self.progress.targets > self.progress.refused;
        let libc = self.reader.needless_libc().filter(|_| has_answer);
        let libc = libc.map(|it| format!("`--libc {it}` isn't needed: without it the answers are the same"));
        let binary = self.progress.binary;
        let files = (binary > 0).then(|| format!("{binary} binary file{} not read", if binary > 1 { "s" } else { "" }));
        let unclear = self.reader.unclear.get();
        let words = (unclear > 0).then(|| {
            let (words, are) = match unclear {
                1 => ("word that may be a target", "isn't"),
                _ => ("words that may be targets", "aren't"),
            };
            format!("{unclear} {words} {are} understood: --strict shows each")
        });
        let of_input = of_input.filter(|_| binary == 0 && self.unread == 0).map(str::to_string);
        for note in of_input.into_iter().chain(words).chain(files).chain(libc).filter(|_| !self.is_quiet) {
            self.outputs.refuse(|page, _| show!(page, "note: ", note, "\n"))?;
        }
        self.outputs.flush()
    }

    /// Of many targets, how many were refused, as the last line of the messages; and whether there may be more, since
    /// the run ended with the last of `--max-errors`.
    fn summarize(&mut self, is_cut: bool) -> Result<(), Fault> {
        let Progress { targets, refused, .. } = self.progress;
        self.progress.end()?;
        let in_json = self.outputs.has_objects() && self.call.has_refused_objects();
        if self.is_quiet || refused == 0 || !is_cut && (targets < 2 || in_json) {
            return Ok(());
        }
        let (refused, targets) = (with_commas(refused), with_commas(targets));
        let cut = if is_cut { "; ended there, as --max-errors says" } else { "" };
        self.outputs.refuse(|page, _| show!(page, refused, " of ", targets, " targets refused", cut, "\n"))?;
        self.outputs.flush()
    }
}
