//! Every pair of `NAME.trace` and `NAME.answers` in the vectors' folder: the twin
//! writes the answers, byte for byte, and of the pair `falsified`, where there is
//! one, others. The folder is the environment's VECTORS, or the repository's own.

use std::collections::BTreeSet;
use std::fs;
use std::path::{Path, PathBuf};

use twin::run::program;

fn folder() -> PathBuf {
    match std::env::var_os("VECTORS") {
        Some(named) => PathBuf::from(named),
        None => Path::new(env!("CARGO_MANIFEST_DIR")).join("../crates/vectors/data"),
    }
}

/// The names, without ending, of the files with this ending.
fn names(folder: &Path, ending: &str) -> BTreeSet<String> {
    let entries = fs::read_dir(folder).unwrap_or_else(|error| {
        panic!("no vectors at {} ({error}): set VECTORS", folder.display())
    });
    entries
        .map(|entry| entry.expect("an entry of the folder").file_name())
        .filter_map(|name| Some(name.to_str()?.strip_suffix(ending)?.to_string()))
        .collect()
}

#[test]
fn each_vector_is_answered_byte_for_byte() {
    let folder = folder();
    let traces = names(&folder, ".trace");
    assert!(!traces.is_empty(), "no .trace file in {}", folder.display());
    assert_eq!(
        traces,
        names(&folder, ".answers"),
        "a trace or its answers are missing"
    );
    let differing: Vec<&String> = traces
        .iter()
        .filter(|name| {
            let trace = fs::read(folder.join(format!("{name}.trace"))).expect("a trace");
            let answers = fs::read(folder.join(format!("{name}.answers"))).expect("its answers");
            program(&trace).report() != answers
        })
        .collect();
    // The repository's own folder has one pair whose answers are false on purpose.
    let falsified: Vec<&String> = traces.iter().filter(|name| *name == "falsified").collect();
    assert_eq!(differing, falsified, "answered otherwise");
    println!("{} vectors", traces.len());
}
