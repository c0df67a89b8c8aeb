//! Jobs whose outputs were worked out by hand from document 01: its example, its proved cases as far as 32 qubits and 48 events
//! reach, and its rules one at a time. A case that is given for one form only is meant for that form.

/// A job and its output.
pub struct Hand {
    pub job: String,
    pub output: String,
}

/// A header with labels that are all different: bit 2q for x[q], bit 2q + 1 for z[q].
fn header(n: u32, form: &str, events: u32, steps: u32) -> String {
    let mut text = format!("qubits={n}\nform={form}\nevents={events}\nsteps={steps}\n");
    for q in 0..n {
        text += &format!("label={q} x={:032x} z={:032x}\n", 1u64 << (2 * q), 2u64 << (2 * q));
    }
    text
}

fn zeros(n: u32, form: &str, events: u32, steps: u32) -> String {
    let mut text = format!("qubits={n}\nform={form}\nevents={events}\nsteps={steps}\n");
    for q in 0..n {
        text += &format!("label={q} x={:032x} z={:032x}\n", 0, 0);
    }
    text
}

/// One line of a job beside what it prints, line numbers left out; the last is the end line.
fn hand(header: String, lines: &[(&str, &str)], end: &str) -> Hand {
    let mut number = header.lines().count();
    let (mut job, mut output) = (header, String::new());
    for (line, answer) in lines {
        number += 1;
        job += &format!("{line}\n");
        output += &format!("line={number} {answer}\n");
    }
    output += &format!("end={number} {end}\n");
    Hand { job, output }
}

/// 01's example, copied.
fn example() -> Hand {
    let job = include_str!("../../../../examples/worked.job").to_string();
    let output = "\
line=7 answer=0 id=0
line=8 answer=0
line=9 look=none steps=0
line=10 answer=0
line=11 answer=0
line=12 answer=0
line=13 look=found id=0 sign=-1 steps=1
line=14 answer=0 id=1
line=15 look=blocked steps=2
line=16 answer=0
line=17 look=found id=0 sign=-1 steps=1
line=18 answer=0
line=19 look=none steps=0
end=19 events=2 live=1
";
    Hand { job, output: output.to_string() }
}

/// Cases 5 to 8: y recorded at the opening has sign +1; then s and x, sdg and x, sx and z all have the axis Y.
fn cases_5_to_8(form: &str, steps: u32) -> Hand {
    let found = |sign: i8| format!("look=found id=0 sign={sign} steps={steps}");
    hand(
        header(1, form, 4, 10),
        &[
            ("record=y a=0 tag=1", "answer=0 id=0"),
            ("gate=s a=0", "answer=0"),
            ("look=x a=0", &found(-1)),
            ("gate=sdg a=0", "answer=0"),
            ("gate=sdg a=0", "answer=0"),
            ("look=x a=0", &found(1)),
            ("gate=s a=0", "answer=0"),
            ("gate=sx a=0", "answer=0"),
            ("look=z a=0", &found(1)),
        ],
        "events=1 live=1",
    )
}

/// Case 9.
fn case_9(form: &str, allowance: u32, look: &str) -> Hand {
    let lines = [("record=z a=0 tag=1", "answer=0 id=0"), ("look=z a=0", look)];
    hand(header(1, form, 1, allowance), &lines, "events=1 live=1")
}

/// Case 10 with three entries in place of 63: the match stands in the block that is scanned, and is paid for again.
fn case_10(form: &str, look: &str) -> Hand {
    hand(
        header(1, form, 3, 4),
        &[
            ("record=z a=0 tag=1", "answer=0 id=0"),
            ("record=z a=0 tag=2", "answer=0 id=1"),
            ("record=z a=0 tag=3", "answer=0 id=2"),
            ("look=z a=0", look),
        ],
        "events=3 live=3",
    )
}

/// Case 11, refused: six places left.
fn case_11_refused(form: &str) -> Hand {
    hand(
        header(3, form, 8, 100),
        &[
            ("record=x a=2 tag=1", "answer=0 id=0"),
            ("record=z a=0 tag=2", "answer=0 id=1"),
            ("ccx=0 b=1 c=2", "answer=6"),
            ("record=z a=1 tag=3", "answer=0 id=2"),
        ],
        "events=3 live=3",
    )
}

/// Case 11, with seven places left and one to spare. List 2 is X2, then X2, Z0X2, Z1X2, Z0Z1X2; list 0 is Z0, then Z0, Z0Z1,
/// Z0X2, Z0Z1X2; all commute with X2 and with Z0. Then Z2 stands in the way of X2.
fn case_11(form: &str, found: u32, blocked: u32) -> Hand {
    hand(
        header(3, form, 10, 100),
        &[
            ("record=x a=2 tag=1", "answer=0 id=0"),
            ("record=z a=0 tag=2", "answer=0 id=1"),
            ("ccx=0 b=1 c=2", "answer=0 id=2"),
            ("look=x a=2", &format!("look=found id=0 sign=1 steps={found}")),
            ("look=z a=0", &format!("look=found id=1 sign=1 steps={found}")),
            ("record=z a=2 tag=3", "answer=0 id=9"),
            ("look=x a=2", &format!("look=blocked steps={blocked}")),
            ("record=z a=2 tag=4", "answer=6"),
        ],
        "events=10 live=10",
    )
}

/// The order of the seven products, by steps. Z0X2 is recorded; a ccz with z[2] = Z0Z2 follows: list 0 has Z0 and Z0Z1, which
/// commute with it, before the target's row, which does not.
fn ccz_order(form: &str, steps: u32) -> Hand {
    hand(
        header(3, form, 8, 100),
        &[
            ("gate=cz a=0 b=2", "answer=0"),
            ("record=x a=2 tag=1", "answer=0 id=0"),
            ("gate=cz a=0 b=2", "answer=0"),
            ("gate=cnot a=0 b=2", "answer=0"),
            ("ccz=0 b=1 c=2", "answer=0 id=1"),
            ("gate=cnot a=0 b=2", "answer=0"),
            ("gate=cz a=0 b=2", "answer=0"),
            ("look=x a=2", &format!("look=blocked steps={steps}")),
        ],
        "events=8 live=8",
    )
}

/// The same for ccx: Z0Z2 is recorded, and x[2] is X2Z0.
fn ccx_order(form: &str, steps: u32) -> Hand {
    hand(
        header(3, form, 8, 100),
        &[
            ("gate=cnot a=0 b=2", "answer=0"),
            ("record=z a=2 tag=1", "answer=0 id=0"),
            ("gate=cnot a=0 b=2", "answer=0"),
            ("gate=cz a=0 b=2", "answer=0"),
            ("ccx=0 b=1 c=2", "answer=0 id=1"),
            ("gate=cz a=0 b=2", "answer=0"),
            ("gate=cnot a=0 b=2", "answer=0"),
            ("look=z a=2", &format!("look=blocked steps={steps}")),
        ],
        "events=8 live=8",
    )
}

/// cy is sdg on its target, cnot, s, and undoes itself: after it x[0] is X0Y1 with the sign that those three gates give.
fn cy(form: &str, steps: u32) -> Hand {
    hand(
        header(2, form, 1, 100),
        &[
            ("gate=sdg a=1", "answer=0"),
            ("gate=cnot a=0 b=1", "answer=0"),
            ("gate=s a=1", "answer=0"),
            ("record=x a=0 tag=1", "answer=0 id=0"),
            ("gate=cy a=0 b=1", "answer=0"),
            ("look=x a=0", "look=none steps=0"),
            ("gate=cy a=0 b=1", "answer=0"),
            ("gate=sdg a=1", "answer=0"),
            ("gate=cnot a=0 b=1", "answer=0"),
            ("gate=s a=1", "answer=0"),
            ("gate=cy a=0 b=1", "answer=0"),
            ("look=x a=0", &format!("look=found id=0 sign=1 steps={steps}")),
            ("gate=z a=0", "answer=0"),
            ("look=x a=0", &format!("look=found id=0 sign=-1 steps={steps}")),
        ],
        "events=1 live=1",
    )
}

/// Case 12: list 0 is Z0 and three times Z0Z1. Scalar: one dead of four stays and costs its step, two are dropped. Sliced: dead
/// entries cost nothing, dropped or not.
fn case_12(form: &str, steps: [u32; 4]) -> Hand {
    let found = steps.map(|s| format!("look=found id=0 sign=1 steps={s}"));
    hand(
        header(2, form, 4, 100),
        &[
            ("record=z a=0 tag=1", "answer=0 id=0"),
            ("gate=cnot a=0 b=1", "answer=0"),
            ("record=z a=1 tag=2", "answer=0 id=1"),
            ("record=z a=1 tag=3", "answer=0 id=2"),
            ("record=z a=1 tag=4", "answer=0 id=3"),
            ("look=z a=0", &found[0]),
            ("kill=1", "answer=0"),
            ("look=z a=0", &found[1]),
            ("kill=2", "answer=0"),
            ("look=z a=0", &found[2]),
            ("kill=3", "answer=0"),
            ("look=z a=0", &found[3]),
        ],
        "events=4 live=1",
    )
}

/// All labels 0: the newest of the label has another axis, an older one the same.
fn collision(form: &str, steps: u32, looks: [&str; 3]) -> Hand {
    hand(
        zeros(2, form, 4, steps),
        &[
            ("record=z a=0 tag=1", "answer=0 id=0"),
            ("record=z a=1 tag=2", "answer=0 id=1"),
            ("look=z a=0", looks[0]),
            ("look=x a=0", looks[1]),
            ("look=p a=1", looks[2]),
        ],
        "events=2 live=2",
    )
}

/// A clear hides what was recorded; a hidden rotation can still be killed, once.
fn cleared(form: &str, steps: [u32; 2]) -> Hand {
    hand(
        header(1, form, 2, 100),
        &[
            ("record=z a=0 tag=1", "answer=0 id=0"),
            ("clear=all", "answer=0"),
            ("look=z a=0", "look=none steps=0"),
            ("record=z a=0 tag=2", "answer=0 id=1"),
            ("look=z a=0", &format!("look=found id=1 sign=1 steps={}", steps[0])),
            ("kill=0", "answer=0"),
            ("kill=0", "answer=7"),
            ("look=z a=0", &format!("look=found id=1 sign=1 steps={}", steps[1])),
            ("kill=1", "answer=0"),
            ("look=z a=0", "look=none steps=0"),
        ],
        "events=2 live=0",
    )
}

/// A measurement commutes with Z0, a reset does not; blockers and numbers never given cannot be killed.
fn blockers(form: &str, found: u32, blocked: u32) -> Hand {
    hand(
        header(1, form, 4, 100),
        &[
            ("record=z a=0 tag=1", "answer=0 id=0"),
            ("measure=0", "answer=0 id=1"),
            ("look=z a=0", &format!("look=found id=0 sign=1 steps={found}")),
            ("reset=0", "answer=0 id=2"),
            ("look=z a=0", &format!("look=blocked steps={blocked}")),
            ("kill=1", "answer=7"),
            ("kill=4", "answer=7"),
            ("measure=0", "answer=6"),
        ],
        "events=4 live=4",
    )
}

/// Every refusal number of a call, and what is asked first.
fn refusals(form: &str) -> Hand {
    hand(
        header(2, form, 1, 100),
        &[
            ("turn=1 kind=z a=9", "answer=8"),
            ("turn=2 kind=z a=2", "answer=4"),
            ("gate=cnot a=2 b=2", "answer=4"),
            ("gate=cnot a=1 b=1", "answer=5"),
            ("ccz=0 b=1 c=0", "answer=5"),
            ("ccz=0 b=1 c=2", "answer=4"),
            ("reset=0", "answer=6"),
            ("reset=2", "answer=4"),
            ("look=y a=2", "answer=4"),
            ("kill=0", "answer=7"),
            ("record=y a=1 tag=4294967295", "answer=0 id=0"),
            ("record=y a=1 tag=0", "answer=6"),
            ("record=y a=2 tag=0", "answer=4"),
        ],
        "events=1 live=1",
    )
}

pub fn all() -> Vec<Hand> {
    let collided = ["look=found id=0 sign=1 steps=2", "look=none steps=2", "look=found id=1 sign=1 steps=1"];
    let sliced = ["look=found id=0 sign=1 steps=3", "look=none steps=2", "look=found id=1 sign=1 steps=2"];
    vec![
        example(),
        cases_5_to_8("scalar", 1),
        cases_5_to_8("sliced", 2),
        case_9("scalar", 1, "look=found id=0 sign=1 steps=1"),
        case_9("scalar", 0, "look=out steps=0"),
        case_9("sliced", 1, "look=out steps=1"),
        case_9("sliced", 2, "look=found id=0 sign=1 steps=2"),
        case_10("sliced", "look=found id=2 sign=1 steps=4"),
        case_10("scalar", "look=found id=2 sign=1 steps=1"),
        case_11_refused("scalar"),
        case_11_refused("sliced"),
        case_11("scalar", 5, 6),
        case_11("sliced", 6, 7),
        case_12("scalar", [4, 4, 2, 1]),
        case_12("sliced", [5, 4, 3, 2]),
        ccz_order("scalar", 4),
        ccz_order("sliced", 6),
        ccx_order("scalar", 4),
        ccx_order("sliced", 6),
        cy("scalar", 1),
        cy("sliced", 3),
        collision("scalar", 100, collided),
        collision("sliced", 100, sliced),
        collision("scalar", 1, ["look=out steps=1", "look=out steps=1", collided[2]]),
        collision("sliced", 2, ["look=out steps=2", "look=none steps=2", sliced[2]]),
        collision("sliced", 1, ["look=out steps=1", "look=out steps=1", "look=out steps=1"]),
        cleared("scalar", [1, 1]),
        cleared("sliced", [3, 2]),
        blockers("scalar", 2, 4),
        blockers("sliced", 3, 5),
        refusals("scalar"),
        refusals("sliced"),
    ]
}
