//! Reading and writing of the two files.
use crate::table::Table;
use mescjadro_compare::bdmv::index_bdmv::IndexBdmv;
use mescjadro_compare::bdmv::movie_object::MovieObjects;
use mescjadro_compare::generate::commands::assign;
use mescjadro_compare::generate::discs::{self, Disc, Entry, bdj, hdmv};
use mescjadro_compare::library::{Index, Objects, raw};
use std::hint::black_box;

pub const MIB: usize = 1 << 20;

/// A disc whose object file is about so long, with so many commands an object.
pub fn disc_of_length(length: usize, commands: usize) -> Disc {
    let objects = ((length - 78) / (4 + 12 * commands)).min(65_535);
    let commands = (0..commands).map(|n| assign(n as u32 % 4096, n as u32)).collect::<Vec<_>>();
    discs::of(vec![hdmv(0)], vec![commands; objects])
}

/// The same with objects of two sizes in turn, so that no object is as long as the one before it.
fn disc_of_two_sizes(length: usize, few: usize, many: usize) -> Disc {
    let pairs = ((length - 78) / (8 + 12 * (few + many))).min(32_767);
    let commands = |count: usize| (0..count).map(|n| assign(n as u32 % 4096, n as u32)).collect::<Vec<_>>();
    let objects = (0..2 * pairs).map(|n| commands(if n % 2 == 0 { few } else { many })).collect();
    discs::of(vec![hdmv(0)], objects)
}

pub fn read_objects(file: &[u8]) {
    let mut result = [0; 2];
    let refusal = unsafe { raw::mescjadro_objects(file.as_ptr(), file.len(), result.as_mut_ptr(), result.len()) };
    assert_eq!(black_box(refusal), 0);
    black_box(result);
}

pub fn read_index(file: &[u8]) {
    let mut result = [0; 6];
    let refusal = unsafe { raw::mescjadro_index(file.as_ptr(), file.len(), result.as_mut_ptr(), result.len()) };
    assert_eq!(black_box(refusal), 0);
    black_box(result);
}

fn objects_row(table: &mut Table, what: &str, disc: &Disc, target: Option<f64>) {
    let file = disc.object_file();
    let what = format!("read an object file of {} bytes, {what}", file.len());
    let theirs = || drop(black_box(MovieObjects::parse(black_box(&file)).unwrap()));
    table.both(&what, 1, target, Box::new(theirs), Box::new(|| read_objects(black_box(&file))));
}

fn index_row(table: &mut Table, what: &str, entry: Entry, target: f64) {
    let file = discs::of(vec![entry; 65_535], vec![]).index_file();
    let theirs = || drop(black_box(IndexBdmv::parse(black_box(&file)).unwrap()));
    table.both(what, 1, Some(target), Box::new(theirs), Box::new(|| read_index(black_box(&file))));
}

pub fn reading(table: &mut Table) {
    objects_row(table, "100 commands an object", &disc_of_length(MIB, 100), Some(20.0));
    objects_row(table, "100 commands an object", &disc_of_length(16 * MIB, 100), Some(20.0));
    objects_row(table, "1 command an object", &disc_of_length(MIB, 1), Some(8.0));
    objects_row(table, "21 commands an object, the most objects", &disc_of_length(16 * MIB, 21), Some(8.0));
    objects_row(table, "99 and 101 commands in turn", &disc_of_two_sizes(MIB, 99, 101), None);
    objects_row(table, "99 and 101 commands in turn", &disc_of_two_sizes(16 * MIB, 99, 101), None);
    objects_row(table, "1 and 2 commands in turn", &disc_of_two_sizes(MIB, 1, 2), None);
    objects_row(table, "20 and 22 commands in turn", &disc_of_two_sizes(16 * MIB, 20, 22), None);
    index_row(table, "read an index of 65,535 titles, movie objects", hdmv(7), 4.0);
    index_row(table, "read an index of 65,535 titles, BD-J", bdj(*b"00001"), 8.0);
}

pub fn writing(table: &mut Table) {
    let mut disc = disc_of_length(MIB, 100);
    disc.entries = vec![hdmv(7); 1000];
    let (index, objects) = (Index::of(&disc), Objects::of(&disc));
    let (index_file, object_file) = (disc.index_file(), disc.object_file());
    let their_index = IndexBdmv::parse(&index_file).unwrap();
    let their_objects = MovieObjects::parse(&object_file).unwrap();
    let mut out = vec![0u8; object_file.len()];
    let theirs = || {
        black_box(black_box(&their_index).encode());
        black_box(black_box(&their_objects).encode());
    };
    let ours = || {
        let (mut first, mut second) = (0, 0);
        let refusal = index.write(&mut out, &mut first);
        assert_eq!((refusal, first), (0, index_file.len()));
        let refusal = objects.write(&mut out, &mut second);
        assert_eq!((refusal, second), (0, object_file.len()));
    };
    table.both("write both files, 1 MiB and 998 titles", 1, Some(1.0), Box::new(theirs), Box::new(ours));
}
