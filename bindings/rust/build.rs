//! Tells the linker where libexport_voice.a and libexport_sound.a are; src/calls.rs names them.

fn main() {
    println!("cargo:rerun-if-env-changed=EXPORTS_DIR");
    let Ok(folder) = std::env::var("EXPORTS_DIR") else {
        println!(
            "cargo:warning=EXPORTS_DIR is to name the folder of libexport_voice.a and libexport_sound.a"
        );
        return;
    };
    for name in ["export_voice", "export_sound"] {
        println!("cargo:rerun-if-changed={folder}/lib{name}.a");
    }
    println!("cargo:rustc-link-search=native={folder}");
}
