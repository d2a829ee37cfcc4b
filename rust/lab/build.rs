//! Links the archive of the inner layers.

fn main() {
    archive::link("lab");
}
