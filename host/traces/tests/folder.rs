//! The folder of trace files holds exactly the table.

use std::collections::BTreeMap;
use std::fs;
use std::path::PathBuf;

fn folder() -> PathBuf {
    PathBuf::from(env!("CARGO_MANIFEST_DIR")).join("../../traces")
}

/// The names and bytes of the files in the folder.
fn in_folder() -> BTreeMap<String, Vec<u8>> {
    let entries = fs::read_dir(folder()).expect("the folder of traces can be listed");
    entries
        .map(|entry| {
            let path = entry.expect("an entry of the folder can be read").path();
            let name = path.file_name().expect("a file has a name").to_string_lossy().into_owned();
            (name, fs::read(&path).expect("a file of the folder can be read"))
        })
        .collect()
}

/// The names and bytes of the files that the program writes.
fn in_table() -> BTreeMap<String, Vec<u8>> {
    let answers = (String::from(traces::ANSWERS), traces::answers().into_bytes());
    traces::rows().into_iter().map(|row| (row.name, row.file)).chain([answers]).collect()
}

#[test]
fn the_folder_holds_exactly_the_table() {
    let folder = in_folder();
    let table = in_table();
    let names =
        |files: &BTreeMap<String, Vec<u8>>| -> Vec<String> { files.keys().cloned().collect() };
    assert_eq!(names(&folder), names(&table));
    for (name, bytes) in &table {
        assert!(folder.get(name) == Some(bytes), "{name} differs; run write_traces");
    }
}
