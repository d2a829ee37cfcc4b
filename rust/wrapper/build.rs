//! Links the proved library's archive.

fn main() {
    archive::link("export");
}
