//! The plain session that the benchmark measures gives the answers of the core's: the gate runs the
//! Rattle program `session_cost` and holds it to the same file.

#[path = "../benches/cost/plain_session.rs"]
mod plain_session;

#[test]
fn the_plain_session_has_the_core_s_checksums() {
    let expected = include_str!("../../crates/session_cost/stdout");
    let told: String = plain_session::RUNS
        .iter()
        .map(|(name, run)| format!("{name}: checksum {}\n", run(2000)))
        .collect();
    assert_eq!(told, expected);
}
