//! The comparison over the mock: no difference where there is none, and every deliberate break is caught.
#![cfg(feature = "mock")]
use std::process::{Command, Output};

/// Runs the comparison with a break (0: none) from a seed.
fn compare(number: usize, seed: &str, loads: &str) -> Output {
    let out = format!("{}/break-{number}", env!("CARGO_TARGET_TMPDIR"));
    Command::new(env!("CARGO_BIN_EXE_compare"))
        .args(["--seed", seed, "--loads", loads, "--out", &out])
        .env("OBARSIVEL_MOCK_BREAK", number.to_string())
        .output()
        .expect("the comparison runs")
}

#[test]
fn the_plain_reader_is_like_itself() {
    let output = compare(0, "32", "300");
    let said = String::from_utf8_lossy(&output.stdout).into_owned();
    assert!(output.status.success(), "{said}");
    let last = said.lines().last().unwrap_or("");
    assert!(last.starts_with("compare: 300 loads, ") && last.ends_with(" writes, no difference"), "{said}");
}

#[test]
fn every_break_is_caught() {
    for (at, what) in obarsivel::mock::BREAKS.iter().enumerate() {
        let output = compare(at + 1, "32", "2000");
        let said = String::from_utf8_lossy(&output.stdout).into_owned();
        assert_eq!(output.status.code(), Some(1), "{what}: {said}");
        assert!(said.starts_with("seed "), "{what}: {said}");
    }
}
