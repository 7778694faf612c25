//! Builds the comparison with each change of mutants.txt in the Rust's copy, sees whether it sees it, and writes docs/MUTANTS.md.
use std::fmt::Write;
use std::path::{Path, PathBuf};
use std::process::{Command, Stdio};
use std::time::{Duration, Instant};
use std::{env, fs, thread};

const SEED: &str = "1";
const COUNT: &str = "3000";
/// A comparison that takes longer has run into a loop.
const LONGEST: Duration = Duration::from_secs(300);

#[derive(Default)]
struct Mutant {
    name: String,
    what: String,
    file: String,
    old: Vec<String>,
    new: Vec<String>,
}

/// The first line of a block is name and purpose, the second the file, the others go or come.
fn mutant(block: &str) -> Mutant {
    let mut mutant = Mutant::default();
    for line in block.lines() {
        if let Some(line) = line.strip_prefix('-') {
            mutant.old.push(line.into());
        } else if let Some(line) = line.strip_prefix('+') {
            mutant.new.push(line.into());
        } else if let Some((name, what)) = line.split_once(": ") {
            (mutant.name, mutant.what) = (name.into(), what.into());
        } else {
            mutant.file = line.into();
        }
    }
    mutant
}

fn mutants(list: &str) -> Vec<Mutant> {
    let plain: String = list.lines().filter(|line| !line.starts_with('#')).map(|line| format!("{line}\n")).collect();
    plain.split("\n\n").map(str::trim_start).filter(|block| !block.is_empty()).map(mutant).collect()
}

fn copy(from: &Path, to: &Path) {
    fs::create_dir_all(to).unwrap();
    for entry in fs::read_dir(from).unwrap() {
        let path = entry.unwrap().path();
        let place = to.join(path.file_name().unwrap());
        if path.is_dir() {
            copy(&path, &place);
        } else {
            fs::copy(&path, &place).unwrap();
        }
    }
}

fn apply(mutant: &Mutant, published: &Path, copies: &Path) {
    copy(published, copies);
    let place = copies.join(&mutant.file);
    let text = fs::read_to_string(&place).unwrap();
    let (old, new) = (mutant.old.join("\n"), mutant.new.join("\n"));
    assert_eq!(text.matches(&old).count(), 1, "{}: what goes must stand once in {}", mutant.name, mutant.file);
    fs::write(&place, text.replacen(&old, &new, 1)).unwrap();
}

fn build(mutant: &Mutant, copies: &Path) {
    let status = Command::new("cargo")
        .args(["build", "--quiet", "--profile", "mutant", "--features", "library", "--bin", "compare"])
        .env("MESCJADRO_RUST", copies)
        .env("MESCJADRO_MUTANT", &mutant.name)
        .env("RUSTFLAGS", "-Awarnings")
        .status()
        .expect("cargo");
    assert!(status.success(), "{} doesn't build", mutant.name);
}

/// What the comparison prints, if it ends.
fn compared(here: &Path) -> Option<String> {
    let said = here.join("target/mutants/said");
    let out = fs::File::create(&said).unwrap();
    let mut child = Command::new(here.join("target/mutant/compare"))
        .args(["--first", SEED, COUNT])
        .stdout(out)
        .stderr(Stdio::null())
        .spawn()
        .expect("the comparison");
    let began = Instant::now();
    while child.try_wait().unwrap().is_none() {
        if began.elapsed() > LONGEST {
            child.kill().unwrap();
            child.wait().unwrap();
            return None;
        }
        thread::sleep(Duration::from_millis(10));
    }
    Some(fs::read_to_string(said).unwrap())
}

/// In which part, and at which of its cases the difference was seen.
fn seen(said: &str) -> Option<(String, String)> {
    let difference = said.lines().find(|line| line.starts_with("difference "))?;
    let (_, rest) = difference.split_once(" in ")?;
    let (part, rest) = rest.split_once(", case ")?;
    Some((part.into(), rest.split_once(',')?.0.into()))
}

fn main() {
    let here = PathBuf::from(env!("CARGO_MANIFEST_DIR"));
    env::set_current_dir(&here).unwrap();
    let (published, copies) = (here.join("../../shared/docs/src"), here.join("target/mutants/src"));
    let list = mutants(&fs::read_to_string("mutants.txt").unwrap());
    let wanted = env::args().nth(1);
    let (mut table, mut killed) = (String::new(), 0);
    for mutant in list.iter().filter(|mutant| wanted.as_ref().is_none_or(|name| *name == mutant.name)) {
        apply(mutant, &published, &copies);
        build(mutant, &copies);
        let (part, cases) = match compared(&here) {
            Some(said) => seen(&said).unwrap_or(("nowhere".into(), "NOT SEEN".into())),
            None => ("it doesn't end".into(), "NOT SEEN".into()),
        };
        killed += (cases != "NOT SEEN") as usize;
        println!("{}: {part}, {cases}", mutant.name);
        let Mutant { name, what, file, .. } = mutant;
        writeln!(table, "| `{name}` | {} | {what} | {part} | {cases} |", file.trim_start_matches("bdmv/")).unwrap();
    }
    println!("mutants {}, seen {killed}", list.len());
    if wanted.is_none() {
        fs::write("../docs/MUTANTS.md", document(&table, list.len(), killed)).unwrap();
        std::process::exit((killed < list.len()) as i32);
    }
}

fn document(table: &str, all: usize, killed: usize) -> String {
    format!(
        "# Mutants

`compare/mutants` makes this table: it changes one place of the Rust's copy, builds the comparison with it and lets it run
(seed {SEED}, count {COUNT}) until it sees a difference. The changes stand in `compare/mutants.txt`, which also names what is
left out because nothing shows it. Of {all} mutants, {killed} are seen.

| mutant | file | what it changes | seen in | at its case |
|---|---|---|---|---|
{table}"
    )
}
