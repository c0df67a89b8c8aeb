//! Makes the test jobs of the line program: `vectors DIR` writes DIR/jobs, DIR/answers and DIR/coverage. The same files come out
//! each time. It fails if a feature of cover.rs is in too few jobs, or if an output is not the one that a job's maker knows.

mod cover;
mod draft;
mod hand;
mod search;
mod text;

use std::collections::BTreeSet;

use oracle::lines::{run, watched};

/// The byte behind each job in the file.
const MARK: u8 = 0x1e;
const SEED: u64 = 0x7115_b099_e701;

struct Job {
    bytes: Vec<u8>,
    claims: Vec<String>,
    /// The output or its last line, where the maker knows it.
    output: Option<String>,
    last: Option<String>,
}

fn all() -> Vec<Job> {
    let mut jobs = Vec::new();
    for h in hand::all() {
        let claims = vec!["by hand".to_string()];
        jobs.push(Job { bytes: h.job.into_bytes(), claims, output: Some(h.output), last: None });
    }
    for t in text::all() {
        jobs.push(Job { bytes: t.job, claims: t.claims, output: None, last: Some(t.last) });
    }
    for s in search::all(&mut draft::Rng::new(SEED)) {
        twins(&s.text);
        jobs.push(Job { bytes: s.text.into_bytes(), claims: vec![s.claim], output: None, last: None });
    }
    jobs
}

/// 01: two openings that differ only in form give equal looks, steps aside, unless one runs out.
fn twins(text: &str) {
    let other = if text.contains("form=scalar") {
        text.replace("form=scalar", "form=sliced")
    } else {
        text.replace("form=sliced", "form=scalar")
    };
    let outputs = [run(text.as_bytes()), run(other.as_bytes())];
    for (a, b) in outputs[0].lines().zip(outputs[1].lines()) {
        let plain = |l: &str| l.split(" steps=").next().expect("a first part").to_string();
        let out = |l: &str| l.contains("look=out");
        assert!(out(a) || out(b) || plain(a) == plain(b), "twins: {a} and {b} in\n{text}");
    }
}

/// Runs a job, holds its output against what its maker knows, and says what it covers.
fn tried(job: &Job) -> (String, BTreeSet<String>) {
    let mut watch = cover::Watch::default();
    let output = watched(&job.bytes, &mut |judge, call, reply| watch.call(judge, call, reply));
    let text = String::from_utf8_lossy(&job.bytes);
    if let Some(known) = &job.output {
        assert_eq!(&output, known, "worked out by hand:\n{text}");
    }
    if let Some(last) = &job.last {
        assert_eq!(output.lines().last(), Some(last.as_str()), "last line:\n{text}");
    }
    assert!(!job.bytes.contains(&MARK), "no job holds the mark");
    watch.seen.extend(job.claims.iter().cloned());
    (output, watch.seen)
}

fn main() -> std::io::Result<()> {
    let folder = std::env::args().nth(1).expect("vectors DIR");
    let (mut jobs, mut answers, mut covered) = (Vec::new(), String::new(), Vec::new());
    for (i, job) in all().iter().enumerate() {
        let (output, seen) = tried(job);
        jobs.extend(&job.bytes);
        jobs.push(MARK);
        answers += &format!("job={}\n{output}", i + 1);
        covered.push(seen);
    }
    let (table, missing) = cover::table(&covered);
    let table = format!("{} jobs\n\n{table}", covered.len());
    std::fs::create_dir_all(&folder)?;
    std::fs::write(format!("{folder}/jobs"), &jobs)?;
    std::fs::write(format!("{folder}/answers"), &answers)?;
    std::fs::write(format!("{folder}/coverage"), &table)?;
    println!("{} jobs, {} bytes; answers {} bytes", covered.len(), jobs.len(), answers.len());
    for feature in &missing {
        println!("too few: {feature}");
    }
    std::process::exit(if missing.is_empty() { 0 } else { 1 });
}
