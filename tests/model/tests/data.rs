//! The jobs of crates/job_set and the cases of crates/bench_vectors are what the model makes of them today.

use model::{job, text};
use std::fs;
use std::path::Path;
use std::process::Command;

#[test]
fn jobs_are_up_to_date() {
    let set = Path::new(env!("CARGO_MANIFEST_DIR")).join("../../crates/job_set");
    let names = fs::read_to_string(set.join("args")).unwrap();
    let job = |name: &str| fs::read(set.join("data").join(name)).unwrap();
    let whole = job(names.lines().next().unwrap());
    let mut expected = String::new();
    for n in 0..whole.len() {
        expected += &format!("== cut {n}\n{}", job::run(&whole[..n]));
    }
    for name in names.lines() {
        expected += &format!("== {name}\n{}", job::run(&job(name)));
    }
    assert!(expected == fs::read_to_string(set.join("stdout")).unwrap());
    assert_eq!(names.lines().count(), fs::read_dir(set.join("data")).unwrap().count());
    let mut texts = 0;
    for entry in fs::read_dir(Path::new(env!("CARGO_MANIFEST_DIR")).join("../jobs")).unwrap() {
        let path = entry.unwrap().path();
        if path.extension().is_some_and(|e| e == "txt") {
            texts += 1;
            let bytes = job(&format!("{}.job", path.file_stem().unwrap().to_str().unwrap()));
            assert_eq!(text::to_job(&fs::read(&path).unwrap()).as_ref(), Ok(&bytes), "{path:?}");
            let again = text::from_job(&bytes).unwrap();
            assert_eq!(text::to_job(again.as_bytes()), Ok(bytes));
        }
    }
    assert!(names.lines().count() > 40 && texts >= 5);
}

#[test]
fn bench_vectors_are_up_to_date() {
    let kept = Path::new(env!("CARGO_MANIFEST_DIR")).join("../../crates/bench_vectors");
    let made = Path::new(env!("CARGO_TARGET_TMPDIR"));
    assert!(Command::new(env!("CARGO_BIN_EXE_make-bench-vectors")).arg(made).status().unwrap().success());
    for name in ["stdin", "stdout"] {
        assert!(fs::read(kept.join(name)).unwrap() == fs::read(made.join(name)).unwrap(), "{name}");
    }
}
