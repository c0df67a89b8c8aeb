//! The jobs of examples/ print what stands beside them.

use oracle::lines::run;

#[test]
fn examples() {
    let folder = concat!(env!("CARGO_MANIFEST_DIR"), "/../examples");
    for name in ["worked", "ladder", "blocked", "out", "slip"] {
        let job = std::fs::read(format!("{folder}/{name}.job")).expect("a job");
        let output = std::fs::read_to_string(format!("{folder}/{name}.out")).expect("its output");
        assert_eq!(run(&job), output, "{name}");
    }
}
