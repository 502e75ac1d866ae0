//! The files of `traces/` get the answers of `traces/answers.txt`, through the proved library.

use std::fs;
use std::path::PathBuf;

fn folder() -> PathBuf {
    PathBuf::from(env!("CARGO_MANIFEST_DIR")).join("../../traces")
}

#[test]
fn each_file_gets_its_answer() {
    let answers = fs::read_to_string(folder().join(traces::ANSWERS)).expect("the answers");
    let mut files = 0;
    for line in answers.lines() {
        let (name, numbers) = line.split_once(' ').expect("a name, then numbers");
        let file = fs::read(folder().join(name)).expect("a file of the list");
        let answer = wrapper::judge(&file);
        assert_eq!(answer.numbers().to_string(), numbers, "{name}");
        assert_eq!(answer.is_accepted(), numbers.starts_with("1 "), "{name}");
        files += 1;
    }
    assert!(files > 500, "{files} files");
}

/// Last year a judge trapped on a short file.
#[test]
fn each_beginning_of_a_file_gets_an_answer() {
    let file = fs::read(folder().join("k01_copy_wait_all_load.trace")).expect("K1");
    for length in 0..file.len() {
        let answer = wrapper::judge(&file[..length]);
        assert_eq!(answer, wrapper::Answer::WrongShape, "{length} bytes");
    }
    assert!(wrapper::judge(&file).is_accepted());
}
