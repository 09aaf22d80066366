//! Finds the linker's archive: the file that `LINKD_ARCHIVE` names, which has the heap of Rattle's toolchain in it (`tools/install.sh` makes
//! such a one), or else `crates/linkd_c/out/liblinkd_c.a` of this repository, with the heap of the toolchain whose `rt` is there.
use std::env;
use std::path::{Path, PathBuf};
use std::process::{exit, Command};

fn stop(why: &str) -> ! {
    eprintln!("linkd: {why}");
    eprintln!(
        "linkd: run `rt lib` in crates/linkd_c of the repository, or set LINKD_ARCHIVE to an installed liblinkd.a (tools/install.sh)"
    );
    exit(1)
}

/// Links with the archive, whose name begins with `lib` and ends with `.a`.
fn link(archive: &Path) {
    if !archive.is_file() {
        stop(&format!("there is no {}", archive.display()));
    }
    let whole = archive.canonicalize().unwrap_or_else(|fault| stop(&format!("{}: {fault}", archive.display())));
    let name = whole.file_name().and_then(|name| name.to_str()).and_then(|name| name.strip_prefix("lib")?.strip_suffix(".a"));
    let (Some(folder), Some(name)) = (whole.parent(), name) else { stop(&format!("{} isn't named lib*.a", whole.display())) };
    println!("cargo:rustc-link-search=native={}", folder.display());
    println!("cargo:rustc-link-lib=static={name}");
    println!("cargo:rerun-if-changed={}", whole.display());
}

/// The C code for the heap, beside the page that `rt doc` names.
fn heap() -> PathBuf {
    let told = Command::new("rt").arg("doc").output().unwrap_or_else(|fault| stop(&format!("rt doc: {fault}")));
    let page = PathBuf::from(String::from_utf8_lossy(&told.stdout).trim());
    page.with_file_name("c").join("liblibc_c.a")
}

fn main() {
    println!("cargo:rerun-if-env-changed=LINKD_ARCHIVE");
    if let Some(archive) = env::var_os("LINKD_ARCHIVE") {
        return link(Path::new(&archive));
    }
    let top = env::var_os("CARGO_MANIFEST_DIR").map(PathBuf::from).unwrap_or_default();
    link(&top.join("../../crates/linkd_c/out/liblinkd_c.a"));
    link(&heap());
}
