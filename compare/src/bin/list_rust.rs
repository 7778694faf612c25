//! The listing program in the Rust: what crates/list must print of the object file on standard input.
use mescjadro_compare::bdmv::movie_object::MovieObjects;
use mescjadro_compare::paper::files;
use std::io::{Read, Write};

fn main() {
    let mut file = Vec::new();
    std::io::stdin().read_to_end(&mut file).unwrap();
    let number = files::listing(&file);
    let mut out = Vec::new();
    if number == 0 {
        let parsed = MovieObjects::parse(&file).expect("the paper's rules accept what the Rust does");
        for (n, object) in parsed.movie_objects.iter().enumerate() {
            writeln!(out, "{}", object.disassemble(n)).unwrap();
        }
    } else {
        assert!(number == 1 || MovieObjects::parse(&file).is_err(), "the paper's rules refuse what the Rust does");
        writeln!(out, "refused {number}").unwrap();
    }
    std::io::stdout().write_all(&out).unwrap();
}
