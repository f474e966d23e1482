//! Calls on the modules in `tests/samples`, which naga has written, and in `examples/cargo/data`.

use naga_opt::{Code, Pass, check, run, text};
use std::fs;
use std::path::Path;

/// Returns the names and the texts of the samples.
fn samples() -> Vec<(String, String)> {
    let top = Path::new(env!("CARGO_MANIFEST_DIR")).join("../..");
    let mut found = Vec::new();
    for folder in ["tests/samples", "examples/cargo/data"] {
        for entry in fs::read_dir(top.join(folder)).unwrap() {
            let path = entry.unwrap().path();
            let name = path.file_name().unwrap().to_string_lossy().into_owned();
            found.push((
                name,
                fs::read_to_string(&path).unwrap().trim_end().to_owned(),
            ));
        }
    }
    assert!(found.len() >= 6);
    found
}

#[test]
fn samples_are_closed_as_naga_closes_them() {
    let samples = samples();
    let mut compared = 0;
    for (name, json) in &samples {
        let closed_name = name.replace(".json", ".closed.json");
        let closed = samples.iter().find(|(other, _)| *other == closed_name);
        if let Some((_, closed)) = closed {
            assert_eq!(run(json, &[Pass::CloseNaga]).as_ref(), Ok(closed));
            compared += 1;
        }
    }
    assert!(compared > 0);
}

#[test]
fn passes_run_in_their_order() {
    for (name, json) in samples() {
        let culled = run(&json, &[Pass::Cull]).unwrap();
        let closed = run(&culled, &[Pass::Close]).unwrap();
        assert_eq!(run(&json, &[Pass::Cull, Pass::Close]), Ok(closed));
        // The function of `everything` has jumps outside of loops.
        let report = check(&json).unwrap();
        assert_eq!(report.faults > 0, name.starts_with("everything"));
        assert_eq!(report.faults == 0, report.text.starts_with("no faults\n"));
        assert!(!text(&json).unwrap().is_empty() || name == "empty.json");
    }
}

#[test]
fn a_check_returns_the_report() {
    let (_, json) = samples()
        .into_iter()
        .find(|(name, _)| name == "empty.json")
        .unwrap();
    let report = check(&json).unwrap();
    assert_eq!((report.text.as_str(), report.faults), ("no faults\n", 0));
}

#[test]
fn faults_have_codes_and_messages() {
    let (_, json) = samples()
        .into_iter()
        .find(|(name, _)| name == "empty.json")
        .unwrap();
    let error = run(&json, &[]).unwrap_err();
    assert_eq!(error.code, Code::UnknownPass);
    assert_eq!(
        error.message,
        "unknown pass: \"\" (passes: cull, close, close-naga, compact, compact-keep-unused, restrict)"
    );
    let error = check("{").unwrap_err();
    assert_eq!(error.code, Code::NotJson);
    assert_eq!(
        error.message,
        "invalid JSON at byte 1, line 1, column 2: the text ends, expected a key or \"}\""
    );
    assert_eq!(text("[]").unwrap_err().code, Code::NotAModule);
}
