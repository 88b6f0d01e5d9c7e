// Tells the linker where the archives are; the files of src/ that call them name them.
fn main() {
    println!("cargo:rerun-if-env-changed=EXPORTS_DIR");
    if std::env::var_os("CARGO_FEATURE_LINKED").is_none() {
        return;
    }
    let folder = std::env::var("EXPORTS_DIR").expect("EXPORTS_DIR is the folder of the archives");
    for name in ["exports", "export_mel", "export_pairs", "export_preparing", "export_filters", "export_voice", "export_sound"] {
        println!("cargo:rerun-if-changed={folder}/lib{name}.a");
    }
    println!("cargo:rustc-link-search=native={folder}");
}
