//! Points the linker at the proved library: libplanner.a in lib/ of a packed tree, or else
//! libplanner_c.a in crates/planner_c/out/ of the repository.

use std::path::Path;
use std::process::exit;

fn main() {
    let package = std::env::var("CARGO_MANIFEST_DIR").expect("cargo names the package's folder");
    let archives = [
        ("../lib", "planner"),
        ("../crates/planner_c/out", "planner_c"),
    ]
    .map(|(folder, name)| {
        let folder = Path::new(&package).join(folder);
        (folder.join(format!("lib{name}.a")), name)
    });
    let Some((archive, name)) = archives.iter().find(|(archive, _)| archive.is_file()) else {
        eprintln!(
            "neither {} nor {} is there: unpack what scripts/dist packs, or run scripts/install or \
             scripts/test first",
            archives[0].0.display(),
            archives[1].0.display()
        );
        exit(1);
    };
    let folder = archive.parent().expect("the archive's folder");
    println!("cargo:rerun-if-changed={}", archive.display());
    println!("cargo:rustc-link-search=native={}", folder.display());
    println!("cargo:rustc-link-lib=static={name}");
}
