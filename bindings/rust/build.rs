// Links the archive that tools/make-library wrote into the folder that BALEHASP_LIB names.
use std::path::Path;

fn main() {
    println!("cargo:rerun-if-env-changed=BALEHASP_LIB");
    if let Err(missing) = link() {
        eprintln!("balehasp: {missing}; tools/make-library OUT makes one in the folder OUT");
        std::process::exit(1);
    }
}

fn link() -> Result<(), String> {
    let folder = std::env::var("BALEHASP_LIB").map_err(|_| "BALEHASP_LIB names no folder with libbalehasp.a".to_string())?;
    let archive = Path::new(&folder).join("libbalehasp.a");
    // absolute, since cargo does not link where this runs
    let archive = archive.canonicalize().map_err(|_| format!("BALEHASP_LIB is {folder}, and {} is not there", archive.display()))?;
    println!("cargo:rerun-if-changed={}", archive.display());
    println!("cargo:rustc-link-search=native={}", archive.with_file_name("").display());
    Ok(())
}
