//! Links `libtable_ffi.a`, and tells the tests where `libdelkuthi.a` is, for the C hosts to be linked with. A folder that
//! `DELKUTHI_LIB` names may have `libdelkuthi.a` alone, as a release has it: then the tests of `libtable_ffi.a` are left out.

#[path = "../delkuthi/archive.rs"]
mod archive;

fn main() {
    println!("cargo::rustc-check-cfg=cfg(table_ffi)");
    let given = std::env::var_os("DELKUTHI_LIB").map(std::path::PathBuf::from);
    if given.is_none_or(|folder| folder.join("libtable_ffi.a").is_file()) {
        archive::link("table_ffi");
        println!("cargo::rustc-cfg=table_ffi");
    }
    let folder = std::env::var("DEP_DELKUTHI_FOLDER").expect("the crate delkuthi says where its archive is");
    println!("cargo::rustc-env=DELKUTHI_FOLDER={folder}");
}
