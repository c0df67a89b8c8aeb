//! Jobs about the text: each bad line at its number, input that ends early, numbers at their limits, refused openings. The number
//! of the bad line is known here, from how the job was made, and must be what the oracle says.

use oracle::lines::run;

/// A job, what it covers, and its last line.
pub struct Made {
    pub job: Vec<u8>,
    pub claims: Vec<String>,
    pub last: String,
}

const X0: &str = "x=00000000000000000000000000000001 z=0000000000000000000000000000000a";
const X1: &str = "x=00000000000000010000000000000000 z=80000000000000000000000000000000";
const X2: &str = "x=0123456789abcdeffedcba9876543210 z=ffffffffffffffffffffffffffffffff";

fn head(n: usize, form: &str) -> Vec<Vec<u8>> {
    let mut lines = vec![format!("qubits={n}"), format!("form={form}"), "events=20".into(), "steps=100".into()];
    lines.extend([X0, X1, X2][..n].iter().enumerate().map(|(q, x)| format!("label={q} {x}")));
    lines.into_iter().map(String::into_bytes).collect()
}

/// A good job on two qubits; the tables below say which of its lines is replaced.
fn base(form: &str) -> Vec<Vec<u8>> {
    let calls = [
        "record=z a=0 tag=7",
        "gate=h a=1",
        "gate=cnot a=0 b=1",
        "turn=2 kind=y a=1",
        "look=z a=0",
        "measure=1",
        "reset=0",
        "ccx=0 b=1 c=2",
        "kill=0",
        "clear=all",
    ];
    let mut lines = head(2, form);
    lines.extend(calls.iter().map(|l| l.as_bytes().to_vec()));
    lines
}

const HEADER: usize = 4;
const LABELS: usize = 6;

fn place(line: usize) -> &'static str {
    match line {
        1..=HEADER => "header",
        5..=LABELS => "label",
        _ => "operation",
    }
}

/// The lines, each with its newline.
fn whole(lines: &[Vec<u8>]) -> Vec<u8> {
    lines.iter().flat_map(|l| l.iter().copied().chain([b'\n'])).collect()
}

/// A job whose line `at` is bad. Of the lines behind it two stay, and the second is bad too: nothing after a stop is read.
fn broken(mut lines: Vec<Vec<u8>>, at: usize, what: &str) -> Made {
    lines.truncate(at + 1);
    lines.push(b"never read".to_vec());
    let place = place(at);
    let mut claims = vec![format!("bad {place}"), format!("bad {place}: {what}")];
    if at > LABELS + 1 {
        claims.push("bad with answers before it".to_string());
    }
    Made { job: whole(&lines), claims, last: format!("line={at} answer=bad") }
}

fn replaced(count: usize, at: usize, text: &[u8], what: &str) -> Made {
    let mut lines = base(if count % 2 == 0 { "scalar" } else { "sliced" });
    lines[at - 1] = text.to_vec();
    broken(lines, at, what)
}

/// Bad headers: line, text, what is wrong with it.
const HEADERS: &[(usize, &[u8], &str)] = &[
    (1, b"form=scalar", "out of order"),
    (2, b"events=20", "out of order"),
    (3, b"steps=100", "out of order"),
    (2, b"qubits=2", "header line again"),
    (1, b"qubit=2", "unknown key"),
    (4, b"limit=100", "unknown key"),
    (1, b"qubits", "missing field"),
    (3, b"events", "missing field"),
    (1, b"qubits=2 form=scalar", "extra field"),
    (4, b"steps=100 5", "extra field"),
    (1, b" qubits=2", "leading space"),
    (2, b"form=scalar ", "trailing space"),
    (4, b"steps=100 ", "trailing space"),
    (3, b"events =20", "inner space"),
    (3, b"events= 20", "inner space"),
    (1, b"", "blank line"),
    (4, b"", "blank line"),
    (1, b"qubits=2\r", "CR"),
    (2, b"form=sliced\r", "CR"),
    (3, b"events=\t20", "tab"),
    (1, b"Qubits=2", "capitals"),
    (2, b"form=Scalar", "capitals"),
    (1, b"qubits=02", "leading zero"),
    (3, b"events=00", "leading zero"),
    (4, b"steps=0100", "leading zero"),
    (1, b"qubits=", "empty number"),
    (4, b"steps=", "empty number"),
    (1, b"qubits=+2", "sign before a number"),
    (3, b"events=-1", "sign before a number"),
    (4, b"steps=-0", "sign before a number"),
    (1, b"qubits=10000000002", "11 digits"),
    (4, b"steps=00000000100", "11 digits"),
    (4, b"steps=10000000000", "11 digits"),
    (1, b"\xef\xbb\xbfqubits=2", "byte above 127"),
    (4, b"steps=\xb2", "byte above 127"),
    (1, b"qubits=2\0", "NUL"),
    (1, b"qubits=33", "qubits=33"),
    (1, b"qubits=9999999999", "qubits of 10 digits"),
    (1, b"qubits=4294967298", "past 32 bits"),
    (3, b"events=49", "events=49"),
    (3, b"events=9999999999", "events of 10 digits"),
    (3, b"events=4294967304", "past 32 bits"),
    (4, b"steps=18446744073709551716", "past 64 bits"),
    (2, b"form=", "unknown form"),
    (2, b"form=slice", "unknown form"),
    (2, b"form=scalars", "unknown form"),
    (2, b"form=1", "unknown form"),
    (4, b"steps=1e2", "not a decimal"),
    (4, b"steps=0x64", "not a decimal"),
    (4, b"label=0 x=00000000000000000000000000000001 z=0000000000000000000000000000000a", "out of order"),
];

/// Bad labels; `#` stands for 30 hex digits.
const LABEL_LINES: &[(usize, &str, &str)] = &[
    (5, "label=1 x=#01 z=#02", "out of order"),
    (6, "label=0 x=#01 z=#02", "out of order"),
    (6, "label=2 x=#01 z=#02", "number too large"),
    (6, "label=33 x=#01 z=#02", "number too large"),
    (5, "label=4294967296 x=#01 z=#02", "number past 32 bits"),
    (5, "labels=0 x=#01 z=#02", "unknown key"),
    (5, "label=0 y=#01 z=#02", "unknown key"),
    (6, "label=1 x=#01", "missing field"),
    (5, "label=0 z=#02", "missing field"),
    (5, "x=#01 z=#02", "missing field"),
    (6, "label=1 x=#01 z=#02 y=0", "extra field"),
    (5, "label=0 z=#02 x=#01", "fields in another order"),
    (5, " label=0 x=#01 z=#02", "leading space"),
    (6, "label=1 x=#01 z=#02 ", "trailing space"),
    (6, "label=1  x=#01 z=#02", "inner space"),
    (6, "label=1 x= #01 z=#02", "inner space"),
    (5, "", "blank line"),
    (6, "label=1 x=#01 z=#02\r", "CR"),
    (5, "label=0\tx=#01 z=#02", "tab"),
    (5, "Label=0 x=#01 z=#02", "capitals"),
    (5, "label=0 X=#01 z=#02", "capitals"),
    (6, "label=1 x=#0A z=#02", "capital hex"),
    (6, "label=1 x=#01 z=#F2", "capital hex"),
    (5, "label=0 x=#0 z=#02", "31 hex digits"),
    (5, "label=0 x=#01 z=#2", "31 hex digits"),
    (6, "label=1 x=#001 z=#02", "33 hex digits"),
    (6, "label=1 x=#01 z=#002", "33 hex digits"),
    (5, "label=0 x=#0g z=#02", "not hex"),
    (5, "label=0 x=0x# z=#02", "not hex"),
    (5, "label=0 x= z=#02", "not hex"),
    (5, "label=00 x=#01 z=#02", "leading zero"),
    (6, "label=01 x=#01 z=#02", "leading zero"),
    (5, "label= x=#01 z=#02", "empty number"),
    (5, "label=-0 x=#01 z=#02", "sign before a number"),
    (6, "label=+1 x=#01 z=#02", "sign before a number"),
    (5, "label=10000000000 x=#01 z=#02", "11 digits"),
    (6, "record=z a=0 tag=1", "an operation"),
    (6, "clear=all", "an operation"),
    (5, "steps=100", "header line again"),
];

/// Bad operations.
const OPERATIONS: &[(usize, &[u8], &str)] = &[
    (7, b"steps=100", "header line again"),
    (8, b"qubits=2", "header line again"),
    (8, b"form=sliced", "header line again"),
    (7, b"label=2 x=00000000000000000000000000000001 z=00000000000000000000000000000002", "out of order"),
    (7, b"label=0 x=00000000000000000000000000000001 z=0000000000000000000000000000000a", "labels again"),
    (7, b"", "blank line"),
    (11, b"", "blank line"),
    (8, b" ", "blank line"),
    (7, b"read=0", "unknown call"),
    (7, b"open=1", "unknown call"),
    (8, b"h=1", "unknown call"),
    (9, b"cnot=0 b=1", "unknown call"),
    (11, b"end=12", "unknown call"),
    (11, b"# look=z a=0", "unknown call"),
    (11, b"=", "unknown call"),
    (11, b"look", "missing field"),
    (15, b"kill", "missing field"),
    (7, b"gates=h a=1", "unknown key"),
    (7, b"gate=h q=1", "unknown key"),
    (11, b"look=z b=0", "unknown key"),
    (8, b"gate=h", "one qubit too few"),
    (9, b"gate=cnot a=0", "one qubit too few"),
    (9, b"gate=swap a=2", "one qubit too few"),
    (14, b"ccx=0 b=1", "one qubit too few"),
    (8, b"gate=h a=1 b=0", "one qubit too many"),
    (8, b"gate=sdg a=1 b=2", "one qubit too many"),
    (9, b"gate=cz a=0 b=1 c=2", "one qubit too many"),
    (14, b"ccz=0 b=1 c=2 d=0", "one qubit too many"),
    (12, b"measure=1 b=2", "one qubit too many"),
    (8, b"gate=t a=1", "unknown gate"),
    (9, b"gate=cx a=0 b=1", "unknown gate"),
    (8, b"gate=id a=1", "unknown gate"),
    (8, b"gate=sxdg a=1", "unknown gate"),
    (8, b"gate=sd a=1", "unknown gate"),
    (9, b"gate=ccx a=0 b=1 c=2", "unknown gate"),
    (8, b"gate= a=1", "unknown gate"),
    (7, b"record=t a=0 tag=7", "unknown kind"),
    (10, b"turn=2 kind=h a=1", "unknown kind"),
    (11, b"look=zz a=0", "unknown kind"),
    (11, b"look= a=0", "unknown kind"),
    (9, b"gate=cnot b=1 a=0", "fields in another order"),
    (10, b"turn=2 a=1 kind=y", "fields in another order"),
    (7, b"record=z tag=7 a=0", "fields in another order"),
    (14, b"ccx=0 c=2 b=1", "fields in another order"),
    (7, b"record=z a=0", "missing field"),
    (10, b"turn=2 kind=y", "missing field"),
    (10, b"turn=2 a=1", "missing field"),
    (11, b"look=z", "missing field"),
    (7, b"record=z a=0 tag=7 tag=8", "extra field"),
    (11, b"look=z a=0 tag=7", "extra field"),
    (13, b"reset=0 1", "extra field"),
    (16, b"clear=all a=0", "extra field"),
    (7, b" record=z a=0 tag=7", "leading space"),
    (8, b"gate=h a=1 ", "trailing space"),
    (16, b"clear=all ", "trailing space"),
    (8, b"gate=h  a=1", "inner space"),
    (8, b"gate=h a= 1", "inner space"),
    (8, b"gate =h a=1", "inner space"),
    (8, b"gate=h a=1\r", "CR"),
    (16, b"clear=all\r", "CR"),
    (11, b"look=z\ta=0", "tab"),
    (12, b"measure=1\t", "tab"),
    (8, b"gate=H a=1", "capitals"),
    (11, b"look=Z a=0", "capitals"),
    (11, b"LOOK=z a=0", "capitals"),
    (16, b"clear=ALL", "capitals"),
    (8, b"gate=h a=01", "leading zero"),
    (12, b"measure=00", "leading zero"),
    (10, b"turn=02 kind=y a=1", "leading zero"),
    (15, b"kill=00", "leading zero"),
    (7, b"record=z a=0 tag=07", "leading zero"),
    (8, b"gate=h a=", "empty number"),
    (12, b"measure=", "empty number"),
    (10, b"turn= kind=y a=1", "empty number"),
    (7, b"record=z a=0 tag=", "empty number"),
    (14, b"ccx=0 b= c=2", "empty number"),
    (8, b"gate=h a=+1", "sign before a number"),
    (15, b"kill=-1", "sign before a number"),
    (10, b"turn=-2 kind=y a=1", "sign before a number"),
    (8, b"gate=h a=10000000000", "11 digits"),
    (15, b"kill=00000000000", "11 digits"),
    (10, b"turn=10000000002 kind=y a=1", "11 digits"),
    (7, b"record=z a=0 tag=4294967296", "tag past 32 bits"),
    (11, b"record=z a=0 tag=9999999999", "tag past 32 bits"),
    (11, b"record=z a=0 tag=10000000000", "tag of 11 digits"),
    (11, b"record=z a=9 tag=4294967296", "bad before refused"),
    (11, b"turn=3 kind=w a=9", "bad before refused"),
    (11, b"gate=cnot a=1 b=1 ", "bad before refused"),
    (8, b"gate=h a=1\xa0", "byte above 127"),
    (11, b"look=\xc3\xbf a=0", "byte above 127"),
    (8, b"gate=h a=1\0", "NUL"),
    (11, b"\0", "NUL"),
    (16, b"clear=some", "clear=some"),
    (16, b"clear=", "clear=some"),
    (16, b"clear=al", "clear=some"),
    (16, b"clear=0", "clear=some"),
    (15, b"kill=all", "not a decimal"),
    (12, b"measure=z", "not a decimal"),
    (8, b"gate=h a=1x", "not a decimal"),
    (8, b"gate=h a=1.0", "not a decimal"),
    (8, b"gate:h a=1", "another separator"),
    (8, b"gate=h,a=1", "another separator"),
    (8, b"gate=h a=1;", "another separator"),
];

/// Lines of 80, 81 and many bytes, with and without a newline. None can be legal: the longest legal line has 78 bytes.
fn lengths(jobs: &mut Vec<Made>) {
    let digits = |n: usize| "1".repeat(n);
    let label = |number: &str| format!("label={number} {X0}");
    let lines = [
        (4, format!("steps={}", digits(74)), "80 bytes"),
        (4, format!("steps={}", digits(75)), "81 bytes"),
        (1, format!("qubits=2{}", " ".repeat(300)), "long line"),
        (5, label("1000"), "80 bytes"),
        (5, label("0000"), "80 bytes"),
        (5, label("10000"), "81 bytes"),
        (6, format!("label=1 {X1}{}", digits(300)), "long line"),
        (7, format!("record=z a=0 tag={}", digits(63)), "80 bytes"),
        (7, format!("record=z a=0 tag={}", digits(64)), "81 bytes"),
        (11, format!("look=z a=0{}", " ".repeat(70)), "80 bytes"),
        (11, format!("look=z a=0{}", " ".repeat(71)), "81 bytes"),
        (11, format!("look=z a={}", "0".repeat(600)), "long line"),
    ];
    for (i, (at, text, what)) in lines.into_iter().enumerate() {
        let fits = match what {
            "80 bytes" => text.len() == 80,
            "81 bytes" => text.len() == 81,
            _ => text.len() > 81,
        };
        assert!(fits, "{text} is not of {what}");
        jobs.push(replaced(i, at, text.as_bytes(), what));
    }
    for (at, length) in [(2, 79), (3, 400), (5, 81), (6, 300), (8, 80), (11, 500)] {
        let mut lines = base("scalar");
        lines.truncate(at - 1);
        let mut job = whole(&lines);
        job.extend("a".repeat(length).bytes());
        let place = place(at);
        let claims = vec![format!("bad {place}: long line without newline"), "no newline at the end".to_string()];
        jobs.push(Made { job, claims, last: format!("line={at} answer=bad") });
    }
}

/// Input that ends after each line of the header and labels, and after a line that lacks its newline.
fn ends(jobs: &mut Vec<Made>) {
    let lines = base("sliced");
    for count in 0..LABELS {
        let claim = match count {
            0 => "empty input",
            1..HEADER => "input ends in the header",
            _ => "input ends in the labels",
        };
        let last = format!("line={} answer=bad", count + 1);
        jobs.push(Made { job: whole(&lines[..count]), claims: vec![claim.to_string()], last });
    }
    for at in 1..=LABELS + 5 {
        let mut job = whole(&lines[..at]);
        job.pop();
        let claims = vec!["no newline at the end".to_string(), format!("no newline at the end: {}", place(at))];
        jobs.push(Made { job, claims, last: format!("line={at} answer=bad") });
    }
    for at in [1, 5, 11] {
        let mut job = whole(&lines[..at - 1]);
        job.extend(&lines[at - 1][..3]);
        let claims = vec!["no newline at the end".to_string()];
        jobs.push(Made { job, claims, last: format!("line={at} answer=bad") });
    }
    let mut wide = String::from("qubits=32\nform=sliced\nevents=48\nsteps=9\n");
    for q in 0..31 {
        wide += &format!("label={q} {X2}\n");
    }
    let claims = vec!["input ends in the labels".to_string()];
    jobs.push(Made { job: wide.into_bytes(), claims, last: "line=36 answer=bad".to_string() });
    let claims = vec!["no operations".to_string()];
    jobs.push(Made { job: whole(&lines[..LABELS]), claims, last: "end=6 events=0 live=0".to_string() });
}

/// What follows a header in `OPENINGS`: nothing, a good label with calls, a good label with a bad line, or a bad label.
const NOTHING: &str = "";
const GOOD: &str =
    "label=0 x=00000000000000000000000000000001 z=0000000000000000000000000000000a\nrecord=z a=0 tag=1\nlook=z a=0\n";
const NEVER: &str = "label=0 x=00000000000000000000000000000001 z=0000000000000000000000000000000a\nnever read\n";
const BAD: &str = "label=1\n";

/// Openings that are refused, and the order in which that is found out: header, what follows, the last line, what it covers.
const OPENINGS: &[([&str; 4], &str, &str, &str)] = &[
    (["0", "scalar", "8", "100"], NOTHING, "open=1", "open=1 for qubits=0"),
    (["0", "sliced", "8", "100"], GOOD, "open=1", "open=1 for qubits=0"),
    (["0", "scalar", "8", "100"], "never read", "open=1", "nothing is read after open"),
    (["0", "scalar", "0", "0"], NOTHING, "open=1", "open=1 before open=2"),
    (["1", "scalar", "8", "1048577"], GOOD, "open=1", "open=1 for steps too large"),
    (["1", "sliced", "48", "1048577"], GOOD, "open=1", "open=1 for steps too large"),
    (["1", "scalar", "8", "4294967295"], GOOD, "open=1", "open=1 for steps too large"),
    (["1", "scalar", "8", "4294967296"], GOOD, "open=1", "open=1 for steps past 32 bits"),
    (["1", "sliced", "8", "4294967297"], GOOD, "open=1", "open=1 for steps past 32 bits"),
    (["1", "sliced", "8", "9999999999"], GOOD, "open=1", "open=1 for steps past 32 bits"),
    (["1", "scalar", "0", "9999999999"], GOOD, "open=1", "open=1 before open=2"),
    (["1", "scalar", "0", "1048577"], GOOD, "open=1", "open=1 before open=2"),
    (["1", "scalar", "8", "1048577"], NEVER, "open=1", "nothing is read after open"),
    (["1", "scalar", "0", "100"], GOOD, "open=2", "open=2"),
    (["1", "sliced", "0", "1048576"], GOOD, "open=2", "open=2"),
    (["1", "sliced", "0", "0"], NEVER, "open=2", "nothing is read after open"),
    (["1", "scalar", "0", "100"], BAD, "line=5 answer=bad", "bad label before open"),
    (["1", "scalar", "8", "1048577"], NOTHING, "line=5 answer=bad", "bad label before open"),
    (["2", "scalar", "0", "100"], GOOD, "line=6 answer=bad", "bad label before open"),
    (["1", "scalar", "1", "1048576"], GOOD, "end=7 events=1 live=1", "text: legal edge"),
    (["1", "sliced", "48", "0"], GOOD, "end=7 events=1 live=1", "text: legal edge"),
];

fn openings(jobs: &mut Vec<Made>) {
    for ([n, form, events, steps], rest, last, claim) in OPENINGS {
        let job = format!("qubits={n}\nform={form}\nevents={events}\nsteps={steps}\n{rest}");
        jobs.push(Made { job: job.into_bytes(), claims: vec![claim.to_string()], last: last.to_string() });
    }
    for (job, claim) in [
        ("qubits=0\nform=scalar\nevents=1\n", "input ends in the header"),
        ("qubits=0\nform=scalar\nevents=1\nsteps=5", "no newline at the end: header"),
    ] {
        let last = "line=4 answer=bad".to_string();
        jobs.push(Made { job: job.as_bytes().to_vec(), claims: vec![claim.to_string()], last });
    }
}

/// Numbers of up to ten digits are legal text and get their answers: lines with what they print.
const EDGES: &[(&str, &str)] = &[
    ("record=z a=0 tag=4294967295", "answer=0 id=0"),
    ("record=z a=0 tag=0", "answer=0 id=1"),
    ("gate=h a=9999999999", "answer=4"),
    ("gate=h a=4294967296", "answer=4"),
    ("gate=cnot a=0 b=4294967297", "answer=4"),
    ("gate=swap a=9999999999 b=9999999999", "answer=4"),
    ("gate=cz a=1 b=1", "answer=5"),
    ("turn=9999999999 kind=x a=0", "answer=8"),
    ("turn=4294967298 kind=x a=0", "answer=8"),
    ("turn=8 kind=z a=9999999999", "answer=8"),
    ("turn=3 kind=y a=1", "answer=8"),
    ("turn=2 kind=y a=4294967296", "answer=4"),
    ("record=y a=3 tag=4294967295", "answer=4"),
    ("record=y a=4294967296 tag=1", "answer=4"),
    ("look=x a=3", "answer=4"),
    ("look=p a=4294967296", "answer=4"),
    ("measure=3", "answer=4"),
    ("measure=4294967296", "answer=4"),
    ("reset=9999999999", "answer=4"),
    ("ccx=0 b=1 c=4294967298", "answer=4"),
    ("ccz=3 b=3 c=3", "answer=4"),
    ("ccx=2 b=1 c=2", "answer=5"),
    ("kill=4294967296", "answer=7"),
    ("kill=9999999999", "answer=7"),
    ("kill=2", "answer=7"),
    ("kill=1", "answer=0"),
    ("kill=1", "answer=7"),
];

/// Five of them at a time, after the two records at their head; and all together.
fn edges(jobs: &mut Vec<Made>, form: &str) {
    for chunk in EDGES[2..].chunks(5).chain([&EDGES[2..]]) {
        let calls = [&EDGES[..2], chunk].concat();
        let mut lines = head(3, form);
        lines.extend(calls.iter().map(|(call, _)| call.as_bytes().to_vec()));
        let output = run(&whole(&lines));
        for (told, (_, wanted)) in output.lines().zip(&calls) {
            assert_eq!(told.split_once(' ').map(|t| t.1), Some(*wanted), "edges: {output}");
        }
        let live = if calls.contains(&("kill=1", "answer=0")) { 1 } else { 2 };
        let last = format!("end={} events=2 live={live}", lines.len());
        jobs.push(Made { job: whole(&lines), claims: vec!["text: legal edge".to_string()], last });
    }
}

/// A store with little room: each way to meet answer 6, and what is asked before it.
fn rooms(jobs: &mut Vec<Made>, form: &str) {
    let cases: [(u32, &[&str], &str); 7] = [
        (1, &["measure=0", "measure=1", "record=x a=0 tag=1", "measure=3", "record=x a=3 tag=1"], "0 id=0|6|6|4|4"),
        (1, &["reset=0", "reset=3", "record=x a=0 tag=1", "reset=0", "look=x a=0"], "6|4|0 id=0|6"),
        (2, &["reset=0", "reset=0", "measure=0"], "0 id=0|6|6"),
        (6, &["ccx=0 b=1 c=2", "ccz=2 b=1 c=0", "ccx=0 b=0 c=1", "ccz=0 b=1 c=3", "ccx=3 b=3 c=3"], "6|6|5|4|4"),
        (7, &["ccx=0 b=1 c=2", "ccx=0 b=1 c=2", "reset=1", "measure=1"], "0 id=0|6|6|6"),
        (7, &["ccz=0 b=1 c=2", "ccz=0 b=1 c=2", "ccz=1 b=1 c=2", "kill=0", "kill=6", "kill=7"], "0 id=0|6|5|7|7|7"),
        (
            13,
            &["ccz=0 b=1 c=2", "ccx=2 b=1 c=0", "ccx=2 b=2 c=0", "reset=2", "reset=1", "reset=0"],
            "0 id=0|6|5|0 id=7|0 id=9|0 id=11",
        ),
    ];
    for (events, calls, answers) in cases {
        let mut lines = head(3, form);
        lines[2] = format!("events={events}").into_bytes();
        lines.extend(calls.iter().map(|c| c.as_bytes().to_vec()));
        let job = whole(&lines);
        let output = run(&job);
        for (told, answer) in output.lines().zip(answers.split('|')) {
            assert_eq!(told.split_once(" answer=").map(|t| t.1), Some(answer), "rooms: {output}");
        }
        let last = output.lines().last().expect("an end line").to_string();
        jobs.push(Made { job, claims: vec!["little room".to_string()], last });
    }
}

pub fn all() -> Vec<Made> {
    let mut jobs = Vec::new();
    for (i, (at, text, what)) in HEADERS.iter().enumerate() {
        jobs.push(replaced(i, *at, text, what));
    }
    for (i, (at, text, what)) in LABEL_LINES.iter().enumerate() {
        let text = text.replace('#', "0123456789abcdef0123456789abcd");
        jobs.push(replaced(i, *at, text.as_bytes(), what));
    }
    let odd: [(usize, &[u8], &str); 3] = [
        (5, b"label=0 x=\xff0000000000000000000000000000001 z=00000000000000000000000000000002", "byte above 127"),
        (6, b"label=1 x=00000000000000000000000000000001 z=0000000000000000000000000000000\0", "NUL"),
        (5, b"label=0\0x=00000000000000000000000000000001 z=00000000000000000000000000000002", "NUL"),
    ];
    for (i, (at, text, what)) in odd.into_iter().enumerate() {
        jobs.push(replaced(i, at, text, what));
    }
    for (i, (at, text, what)) in OPERATIONS.iter().enumerate() {
        jobs.push(replaced(i, *at, text, what));
    }
    lengths(&mut jobs);
    ends(&mut jobs);
    openings(&mut jobs);
    for form in ["scalar", "sliced"] {
        edges(&mut jobs, form);
        rooms(&mut jobs, form);
    }
    jobs
}
