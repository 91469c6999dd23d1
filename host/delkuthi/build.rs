//! Links `libdelkuthi.a`, and tells the crates that use this one where it is.

mod archive;

fn main() {
    println!("cargo:folder={}", archive::link("delkuthi").display());
}
