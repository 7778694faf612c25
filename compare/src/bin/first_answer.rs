//! Document 01's worked listing, as the Rust gives it.
use mescjadro_compare::bdmv::movie_object::MovieObjects;

fn main() {
    let mut file = b"MOBJ0200".to_vec();
    file.extend([0; 32]);
    file.extend([0, 0, 0, 0x32]);
    file.extend([0; 32]);
    file.extend([0, 1, 0, 0, 0, 1]);
    file.extend([0x50, 0x40, 0, 1, 0, 0, 0, 5, 0, 0, 0, 0x10]);
    let read = MovieObjects::parse(&file).expect("the worked file is read");
    let listing = read.movie_objects[0].disassemble(0);
    let worked = "MovieObject[0] (resume=0, menu_mask=0, title_mask=0, 1 cmd)\n    0: Move r5, 0x10";
    assert_eq!(listing, worked);
    println!("the Rust lists the worked example as document 01 does");
}
