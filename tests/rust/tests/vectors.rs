//! The stored cases: what the programs print of them, and how long they take; and the stored readings.

use std::path::PathBuf;
use std::time::{Duration, Instant};

use plain::case::PLAIN;
use plain::read::{read_figure, read_list, read_sheet, Figure};
use plain::stored::{printed, stored};

#[test]
fn every_stored_case() {
    let cases = stored();
    assert_eq!(cases.len(), 301);
    for stored in &cases {
        let got = printed(&PLAIN, &stored.case);
        let show = |bytes: &[u8]| String::from_utf8_lossy(bytes).into_owned();
        assert_eq!(show(&got), show(&stored.printed), "{} {}", stored.case.task.name(), stored.name);
    }
}

/// The stored readings: which text, and the number, input and row of its refusal.
/// Replacements are read beside a pattern with two ports on context 1 and one on context 2.
#[test]
fn every_stored_reading() {
    let folder: PathBuf = [env!("CARGO_MANIFEST_DIR"), "..", "..", "crates", "read_cases"].iter().collect();
    let args = std::fs::read_to_string(folder.join("args")).expect("args");
    let stdout = std::fs::read_to_string(folder.join("stdout")).expect("stdout");
    let args: Vec<&str> = args.lines().collect();
    assert_eq!(args.len(), 2 * stdout.lines().count());
    let ports = [None, Some(2), Some(1), None, None];
    for (arg, expected) in args.chunks(2).zip(stdout.lines()) {
        let text = std::fs::read(folder.join("data").join(arg[1])).expect("data");
        let refusal = match arg[0] {
            "sheet" => read_sheet(&text).err(),
            "figure" => read_figure(&text, Figure::Other).err(),
            "pattern" => read_figure(&text, Figure::Pattern).err(),
            "replacement" => read_figure(&text, Figure::Replacement(&ports)).err(),
            "list" => read_list(&text).err(),
            other => panic!("no text {other}"),
        };
        let (number, row) = refusal.map_or((0, 0), |r| (r.number, r.row));
        assert_eq!(format!("{} {number} {} {row}", arg[1], (number > 0) as u8), expected);
    }
}

/// Without optimisation there is no time to hold to.
#[test]
#[cfg(not(debug_assertions))]
fn no_stored_case_is_slow() {
    for stored in stored() {
        let once = || {
            let start = Instant::now();
            std::hint::black_box(printed(&PLAIN, &stored.case));
            start.elapsed()
        };
        let best = (0..9).map(|_| once()).min().unwrap_or_default();
        assert!(best < Duration::from_millis(50), "{} {}: {best:?}", stored.case.task.name(), stored.name);
    }
}
