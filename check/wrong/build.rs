//! Makes the sources of this crate: those of `../paper/src` with the faults of `faults/` put in, each behind a switch.
//!
//! A file of faults has lines of these forms; a line that begins with blanks goes on with the one before:
//!
//! ```text
//! # a remark
//! in FILE                 what follows is about this file of paper
//! at CONTEXT «CODE» MORE  a place, which the file must have exactly once, remarks and ends of lines apart;
//!                         without « and » all of it is the code
//! Name: OTHER CODE        at that place, one that makes the fault `Name` has this code instead
//! +Name: STATEMENTS       and this one does these before it
//! : OTHER CODE            every one has this instead: room for what a fault needs, nothing else
//! ```
//!
//! A fault may have several places. `help::` is src/help.rs.

use std::collections::BTreeMap;
use std::env;
use std::fs;
use std::path::{Path, PathBuf};

/// Files by name.
type Texts = BTreeMap<String, String>;

/// What a fault has at a place, from a byte of a file to another. Number 0 is no fault: it is always so.
struct Other {
    file: String,
    place: (usize, usize),
    fault: usize,
    /// In addition, and before what is there?
    before: bool,
    code: String,
}

/// Faults are numbered from 1, over all lists.
#[derive(Default)]
struct Faults {
    /// The list and the name of each.
    names: Vec<(String, String)>,
    others: Vec<Other>,
}

fn main() {
    let folder = |name| PathBuf::from(env::var(name).expect("cargo sets it"));
    let (package, out) = (folder("CARGO_MANIFEST_DIR"), folder("OUT_DIR"));
    let sources = texts(&package.join("../paper/src"));
    let lists = texts(&package.join("faults"));
    let mut faults = Faults::default();
    for (list, text) in &lists {
        if let Err(why) = faults.read(list.trim_end_matches(".faults"), text, &sources) {
            panic!("{list}: {why}");
        }
    }
    for (file, text) in &sources {
        let text = match file.as_str() {
            "lib.rs" => modules(text, &out) + &faults.lists(),
            _ => faults.source(file, text),
        };
        fs::write(out.join(file), text).expect("the folder is ours");
    }
}

/// The files of a folder. Cargo is to run this again if they change.
fn texts(folder: &Path) -> Texts {
    println!("cargo:rerun-if-changed={}", folder.display());
    let paths = fs::read_dir(folder).expect("the folder is there");
    let paths = paths.map(|entry| entry.expect("it can be read").path());
    let name = |path: &Path| {
        path.file_name()
            .expect("it has one")
            .to_string_lossy()
            .into_owned()
    };
    let text = |path: &Path| fs::read_to_string(path).expect("it is text");
    paths.map(|path| (name(&path), text(&path))).collect()
}

impl Faults {
    fn read(&mut self, list: &str, text: &str, sources: &Texts) -> Result<(), String> {
        let (mut file, mut place) = (String::new(), (0, 0));
        for line in whole_lines(text) {
            let (word, rest) = line.split_once(' ').unwrap_or((&line, ""));
            match word.strip_suffix(':') {
                None if word == "in" => file = rest.to_string(),
                None if word == "at" => {
                    let times = |times| format!("{times} times in {file}, not once: {rest}");
                    place = found(&sources[&file], rest).map_err(times)?;
                }
                None => return Err(format!("of another form: {line}")),
                Some(name) => {
                    let fault = self.number(list, name.trim_start_matches('+'));
                    self.others.push(Other {
                        file: file.clone(),
                        place,
                        fault,
                        before: name.starts_with('+'),
                        code: rest.replace("help::", "crate::help::"),
                    });
                }
            }
        }
        Ok(())
    }

    /// The number of a fault, a new one if it is new.
    fn number(&mut self, list: &str, name: &str) -> usize {
        let known = self
            .names
            .iter()
            .position(|row| row.0 == list && row.1 == name);
        if let Some(at) = known {
            return at + 1;
        }
        if name.is_empty() {
            return 0;
        }
        self.names.push((list.to_string(), name.to_string()));
        self.names.len()
    }

    /// A file with its faults.
    fn source(&self, file: &str, text: &str) -> String {
        let mut places: BTreeMap<(usize, usize), Vec<&Other>> = BTreeMap::new();
        for other in self.others.iter().filter(|other| other.file == file) {
            places.entry(other.place).or_default().push(other);
        }
        let (mut made, mut at) = (String::new(), 0);
        for ((from, to), others) in places {
            assert!(
                at <= from,
                "{file}: two places overlap at {}",
                &text[from..to]
            );
            made = made + &text[at..from] + &with_others(&text[from..to], &others);
            at = to;
        }
        made + &text[at..]
    }

    /// A constant for each list.
    fn lists(&self) -> String {
        let mut lists: BTreeMap<&str, String> = BTreeMap::new();
        for (at, (list, name)) in self.names.iter().enumerate() {
            let fault = format!("    Fault {{ number: {}, name: {name:?} }},\n", at + 1);
            *lists.entry(list).or_default() += &fault;
        }
        let list = |(name, faults): (&str, String)| {
            format!(
                "pub const {}: &[Fault] = &[\n{faults}];\n",
                name.to_uppercase()
            )
        };
        lists.into_iter().map(list).collect()
    }
}

/// A place with the code of each fault there.
fn with_others(right: &str, others: &[&Other]) -> String {
    let switched =
        |other: &&&Other| format!("if crate::makes({}) {{ {} }} ", other.fault, other.code);
    let always = others.iter().find(|other| other.fault == 0);
    let right = always.map_or(right, |other| &other.code);
    let before: String = others
        .iter()
        .filter(|other| other.before)
        .map(|other| switched(&other))
        .collect();
    let instead = others
        .iter()
        .filter(|other| !other.before && other.fault > 0);
    let instead: String = instead.map(|other| switched(&other) + "else ").collect();
    match instead.is_empty() {
        true => before + right,
        false => format!("{before}({{ {instead}{{ {right} }} }})"),
    }
}

/// The modules of paper, from their copies. Its answers are its own, so that they can be compared.
fn modules(text: &str, out: &Path) -> String {
    let module = |line: &str| match line
        .strip_prefix("mod ")
        .and_then(|rest| rest.strip_suffix(';'))
    {
        Some("answer") => "mod answer { pub use paper::{Answer, Number, Was}; }\n".to_string(),
        Some(name) => format!(
            "#[path = {:?}]\nmod {name};\n",
            out.join(name).with_extension("rs")
        ),
        None => format!("{line}\n"),
    };
    text.lines()
        .filter(|line| !line.starts_with("//!"))
        .map(module)
        .collect()
}

/// The lines without remarks, each with those that go on with it.
fn whole_lines(text: &str) -> Vec<String> {
    let mut lines: Vec<String> = Vec::new();
    for line in text
        .lines()
        .filter(|line| !line.starts_with('#') && !line.trim().is_empty())
    {
        match lines.last_mut().filter(|_| line.starts_with(' ')) {
            Some(before) => *before = format!("{before} {}", line.trim()),
            None => lines.push(line.trim_end().to_string()),
        }
    }
    lines
}

/// Where a text has this code, whatever blanks, ends of lines and remarks are in it; how often, if not once.
fn found(text: &str, place: &str) -> Result<(usize, usize), usize> {
    let parts: Vec<&str> = place.split(['«', '»']).collect();
    let (context, code) = match parts[..] {
        [context, code, _] => (context, code),
        _ => ("", place),
    };
    let begins = |&at: &usize| end(text, at, &parts.concat()).is_some();
    let matches: Vec<usize> = text.char_indices().map(|at| at.0).filter(begins).collect();
    match matches[..] {
        [at] => {
            let from = after_blanks(text, end(text, at, context).expect("it is the beginning"));
            Ok((from, end(text, from, code).expect("it follows")))
        }
        _ => Err(matches.len()),
    }
}

/// Where the code ends that begins here, if it does.
fn end(text: &str, from: usize, code: &str) -> Option<usize> {
    let mut at = from;
    for letter in code.chars().filter(|letter| !letter.is_whitespace()) {
        if at != from {
            at = after_blanks(text, at);
        }
        at += text[at..]
            .starts_with(letter)
            .then_some(letter.len_utf8())?;
    }
    Some(at)
}

/// Behind blanks and remarks.
fn after_blanks(text: &str, from: usize) -> usize {
    let at = text.len() - text[from..].trim_start().len();
    match text[at..].starts_with("//") {
        true => after_blanks(
            text,
            text[at..].find('\n').map_or(text.len(), |end| at + end),
        ),
        false => at,
    }
}
