// Tells the linker where the archives and the shim are; the files of src/ that call them name them.
const ARCHIVES: [&str; 7] = [
    "exports",
    "export_mel",
    "export_pairs",
    "export_preparing",
    "export_filters",
    "export_voice",
    "export_sound",
];

fn main() {
    search("EXPORTS_DIR", &ARCHIVES);
    search("SHIM_DIR", &["shim"]);
    let native = std::env::var("NATIVE_DIR").expect("NATIVE_DIR names a folder");
    println!("cargo:rerun-if-env-changed=NATIVE_DIR");
    println!("cargo:rerun-if-changed={native}/libnative_rust.so");
    println!("cargo:rustc-link-search=native={native}");
    println!("cargo:rustc-link-arg=-Wl,-rpath,{native}");
}

/// Has the linker search the folder that `variable` names, where `names` are.
fn search(variable: &str, names: &[&str]) {
    println!("cargo:rerun-if-env-changed={variable}");
    let folder = std::env::var(variable).unwrap_or_else(|_| panic!("{variable} names no folder"));
    for name in names {
        println!("cargo:rerun-if-changed={folder}/lib{name}.a");
    }
    println!("cargo:rustc-link-search=native={folder}");
}
