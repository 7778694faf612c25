//! What the program `index` prints of a file that is read, from the Rust.
use mescjadro_compare::bdmv::index_bdmv::{IndexBdmv, IndexEntry, IndexObjectType};

fn line(what: &str, entry: &IndexEntry) {
    match &entry.object {
        IndexObjectType::Hdmv { playback_type, movie_object_id_ref } => {
            println!("{what}: movie object {movie_object_id_ref}, playback type {playback_type}")
        }
        IndexObjectType::BdJ { playback_type, bdjo_file_name } => {
            println!("{what}: BD-J {bdjo_file_name}, playback type {playback_type}")
        }
    }
}

fn main() {
    let name = std::env::args().nth(1).expect("an index file");
    let index = IndexBdmv::parse(&std::fs::read(name).expect("a file")).expect("an index file");
    let app = &index.app_info;
    println!("version 0x{:08x}", u32::from_be_bytes(index.version));
    println!(
        "initial output mode preference {}, content exist flag {}, video format {}, frame rate {}",
        app.initial_output_mode_preference as u8, app.content_exist_flag as u8, app.video_format, app.frame_rate
    );
    line("first playback", &index.first_playback_title);
    line("top menu", &index.menu_title);
    for (k, title) in index.titles.iter().enumerate() {
        line(&format!("title {}", k + 1), title);
    }
}
