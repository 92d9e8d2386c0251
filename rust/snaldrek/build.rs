//! Finds the proved library: SNALDREK_LIB names the folder that `./snaldrek library FOLDER` filled.

use std::path::PathBuf;
use std::process::exit;

fn main() {
    println!("cargo:rerun-if-env-changed=SNALDREK_LIB");
    let processor = std::env::var("CARGO_CFG_TARGET_ARCH").unwrap_or_default();
    if processor != "x86_64" {
        eprintln!("snaldrek: libsnaldrek.a is for x86-64, and this is built for {processor}");
        eprintln!("snaldrek: name the target, as --target x86_64-unknown-linux-gnu");
        exit(1)
    }
    let folder = folder_of_library().unwrap_or_else(|why| {
        eprintln!("snaldrek: {why}");
        eprintln!("snaldrek: './snaldrek library FOLDER' builds libsnaldrek.a; then set SNALDREK_LIB=FOLDER");
        exit(1)
    });
    println!(
        "cargo:rerun-if-changed={}",
        folder.join("libsnaldrek.a").display()
    );
    println!("cargo:rustc-link-search=native={}", folder.display());
    println!("cargo:rustc-link-lib=static=snaldrek");
}

fn folder_of_library() -> Result<PathBuf, String> {
    let folder = std::env::var_os("SNALDREK_LIB")
        .map(PathBuf::from)
        .ok_or("SNALDREK_LIB is not set; it has to name the folder of libsnaldrek.a")?;
    if !folder.is_absolute() {
        return Err(format!(
            "SNALDREK_LIB={} is no absolute path",
            folder.display()
        ));
    }
    if !folder.join("libsnaldrek.a").is_file() {
        return Err(format!("there is no libsnaldrek.a in {}", folder.display()));
    }
    Ok(folder)
}
