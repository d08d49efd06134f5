//! Links the proved store if VENTARICO_ARCHIVE_DIR names the folder that holds libventarico.a.
//! Without it everything builds and runs all the same, on the second program alone; and so do SQLite's two layouts
//! where the archive does not have them.

use std::process::Command;

fn main() {
    plain();
    println!("cargo::rustc-check-cfg=cfg(archive, archive_journal, archive_wal)");
    println!("cargo::rerun-if-env-changed=VENTARICO_ARCHIVE_DIR");
    println!("cargo::rerun-if-changed=build.rs");
    if let Ok(folder) = std::env::var("VENTARICO_ARCHIVE_DIR") {
        let archive = format!("{folder}/libventarico.a");
        println!("cargo::rerun-if-changed={archive}");
        println!("cargo::rustc-link-search=native={folder}");
        println!("cargo::rustc-link-lib=static=ventarico");
        println!("cargo::rustc-cfg=archive");
        // An archive names what its members export in plain bytes.
        let bytes = std::fs::read(&archive).unwrap_or_default();
        for (symbol, part) in [("ventarico_journal_play", "archive_journal"), ("ventarico_wal_write", "archive_wal")] {
            if bytes.windows(symbol.len()).any(|window| window == symbol.as_bytes()) {
                println!("cargo::rustc-cfg={part}");
            }
        }
    }
}

/// The plain C whose speed the library's is measured by. The compiler is the one that links this program anyhow.
fn plain() {
    println!("cargo::rerun-if-changed=plain/wal.c");
    let out = std::env::var("OUT_DIR").expect("cargo says where to put it");
    let (object, archive) = (format!("{out}/wal.o"), format!("{out}/libplain.a"));
    let made = |command: &mut Command| command.status().is_ok_and(|status| status.success());
    let compiled =
        made(Command::new("cc").args(["-std=c11", "-O2", "-Wall", "-Wextra", "-c", "plain/wal.c", "-o", &object]));
    assert!(
        compiled && made(Command::new("ar").args(["rcs", &archive, &object])),
        "cc or ar has failed on plain/wal.c"
    );
    println!("cargo::rustc-link-search=native={out}");
    println!("cargo::rustc-link-lib=static=plain");
}
