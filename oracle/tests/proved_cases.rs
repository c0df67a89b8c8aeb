//! 01's twelve proved cases, asked of the original through the judge. The line program has them too, as far as 32 qubits and 48
//! events reach (src/bin/vectors/hand.rs).

use oracle::judge::{Call, Clifford, Form, Judge, Kind, Look, Plane, Read, Reply};

const MOST_STEPS: u64 = 1 << 20;

fn labels(n: usize) -> Vec<(u128, u128)> {
    (0..n as u128).map(|q| (2 * q + 1, (2 * q + 2) << 64)).collect()
}

fn open(n: u64, form: Form, events: u64, steps: u64) -> Result<Judge, u8> {
    Judge::open(n, form, &labels(n as usize), events, steps)
}

fn small(n: u64, form: Form, events: u64, steps: u64) -> Judge {
    open(n, form, events, steps).expect("a legal opening")
}

#[test]
fn case_1_qubits() {
    assert!(open(23_168, Form::Scalar, 1, MOST_STEPS).is_ok());
    assert_eq!(open(23_169, Form::Scalar, 1, MOST_STEPS).err(), Some(1));
    assert_eq!(open(0, Form::Scalar, 1, MOST_STEPS).err(), Some(1));
    assert_eq!(open(1, Form::Scalar, 1, MOST_STEPS + 1).err(), Some(1));
    assert_eq!(Judge::open(u64::MAX, Form::Scalar, &[], 1, 1).err(), Some(1));
}

#[test]
fn case_2_sliced_qubits() {
    assert!(open(32, Form::Sliced, 1, MOST_STEPS).is_ok());
    assert_eq!(open(33, Form::Sliced, 1, MOST_STEPS).err(), Some(1));
}

#[test]
fn cases_3_and_4_events() {
    for (n, most) in [(64, 16_777_216), (192, 5_592_405)] {
        assert!(open(n, Form::Scalar, most, MOST_STEPS).is_ok());
        assert_eq!(open(n, Form::Scalar, most + 1, MOST_STEPS).err(), Some(2));
    }
    assert_eq!(open(1, Form::Scalar, 0, MOST_STEPS).err(), Some(2));
    assert_eq!(open(1, Form::Scalar, u64::MAX, MOST_STEPS).err(), Some(2));
}

#[test]
fn labels_for_each_qubit() {
    assert_eq!(Judge::open(2, Form::Scalar, &labels(1), 1, 1).err(), Some(3));
    assert_eq!(Judge::open(2, Form::Scalar, &labels(3), 1, 1).err(), Some(3));
}

#[test]
fn cases_5_to_8_signs() {
    let y = vec![1, 1];
    for (gate, kind, sign) in [
        (None, Kind::Y, 1),
        (Some(Clifford::S(0)), Kind::X, -1),
        (Some(Clifford::Sdg(0)), Kind::X, 1),
        (Some(Clifford::Sx(0)), Kind::Z, 1),
    ] {
        let mut judge = small(1, Form::Sliced, 1, 1);
        if let Some(gate) = gate {
            judge.gate(gate).expect("in range");
        }
        assert_eq!(judge.axis(kind, 0), (y.clone(), sign));
        judge.record(kind, 0, 9).expect("room");
        assert_eq!(judge.read(0), Ok(Read { tag: 9, sign, live: true }));
    }
}

#[test]
fn case_9_steps() {
    for (form, steps, look) in [
        (Form::Scalar, 1, Look::Found { id: 0, sign: 1, steps: 1 }),
        (Form::Scalar, 0, Look::Out { steps: 0 }),
        (Form::Sliced, 1, Look::Out { steps: 1 }),
        (Form::Sliced, 2, Look::Found { id: 0, sign: 1, steps: 2 }),
    ] {
        let mut judge = small(1, form, 1, steps);
        judge.record(Kind::Z, 0, 1).expect("room");
        assert_eq!(judge.look(Kind::Z, 0), Ok(look));
    }
}

#[test]
fn case_10_blocks_of_64() {
    for (events, id, steps) in [(64, 63, 1), (63, 62, 64), (65, 64, 2)] {
        let mut judge = small(1, Form::Sliced, 100, MOST_STEPS);
        for _ in 0..events {
            judge.record(Kind::Z, 0, 1).expect("room");
        }
        assert_eq!(judge.look(Kind::Z, 0), Ok(Look::Found { id, sign: 1, steps }));
    }
}

#[test]
fn case_11_seven_products() {
    let mut judge = small(3, Form::Scalar, 6, MOST_STEPS);
    assert_eq!(judge.ccx(0, 1, 2), Err(6));
    assert_eq!(judge.events(), 0);
    let mut judge = small(3, Form::Scalar, 7, MOST_STEPS);
    assert_eq!(judge.ccx(0, 1, 2), Ok(0));
    let axes: Vec<_> = (0..7).map(|id| judge.event(id).expect("recorded").axis.to_vec()).collect();
    assert_eq!(axes, [[0, 1], [0, 2], [0, 3], [4, 0], [4, 1], [4, 2], [4, 3]]);
    assert_eq!(judge.kill(3), Err(7));
}

#[test]
fn case_12_dead_shares() {
    let mut judge = small(1, Form::Scalar, 4, MOST_STEPS);
    for _ in 0..4 {
        judge.record(Kind::Z, 0, 1).expect("room");
    }
    judge.kill(1).expect("live");
    assert_eq!((judge.list(0).ids, judge.list(0).dead), (&[0, 1, 2, 3][..], 1));
    judge.kill(3).expect("live");
    assert_eq!((judge.list(0).ids, judge.list(0).dead), (&[0, 2][..], 0));
    let mut judge = small(1, Form::Sliced, 4, MOST_STEPS);
    for _ in 0..4 {
        judge.record(Kind::Z, 0, 1).expect("room");
    }
    for (id, ids, dead, live) in [(1, &[0, 1, 2, 3][..], 1, 13), (3, &[0, 1, 2, 3], 2, 5), (0, &[2], 0, 1)] {
        judge.kill(id).expect("live");
        let list = judge.list(0);
        assert_eq!((list.ids, list.dead, list.live), (ids, dead, &[live][..]));
    }
}

/// docs/DIFFERENCES.md, 1: the signature bit is q / l.
#[test]
fn signature_by_words() {
    let mut judge = small(65, Form::Scalar, 2, MOST_STEPS);
    judge.record(Kind::Z, 0, 1).expect("room");
    judge.record(Kind::Z, 1, 2).expect("room");
    assert_eq!(judge.event(1).expect("recorded").signature, 1);
    assert_eq!(judge.look(Kind::Z, 0), Ok(Look::Found { id: 0, sign: 1, steps: 2 }));
}

/// What the comparison of a later day reads.
#[test]
fn readers() {
    let mut judge = small(2, Form::Scalar, 4, MOST_STEPS);
    assert_eq!(judge.call(&Call::Gate(Clifford::S(1))), Reply::Done);
    let row = judge.row(Plane::X, 1);
    assert_eq!((row.phase, row.x, row.z), (3, &[2][..], &[2][..]));
    assert_eq!(judge.label(Plane::X, 1), 3 ^ (4 << 64));
    assert_eq!(judge.axis_label(Kind::Y, 1), 3);
    judge.record(Kind::X, 1, 5).expect("room");
    judge.record(Kind::X, 1, 6).expect("room");
    judge.kill(0).expect("live");
    assert_eq!(judge.chain(3 ^ (4 << 64)), [1]);
    assert_eq!(judge.event(0).expect("recorded").rotation, Some((5, -1)));
    assert!(!judge.event(0).expect("recorded").live);
    judge.clear();
    assert_eq!(judge.chain(3 ^ (4 << 64)), []);
    assert_eq!((judge.events(), judge.killed(), judge.lists()), (2, 1, 64));
}
