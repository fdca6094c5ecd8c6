//! Cases A to L of document 01 through each call of the archive, and what the table has no case for.

use njallavet::Op::{self, Dup, Load, Pop, Store, Swap};
use njallavet::{
    check, operations, shuffle, Answer, Fault, Limits, Refusal, Spill, State, Verdict,
};

struct Case {
    letter: char,
    limits: (u8, u8),
    start: &'static [u32],
    spilled: &'static [u32],
    first: u32,
    target: &'static [u32],
    refusal: Option<Refusal>,
    ticks: (u32, u32),
    ops: &'static [Op],
    gas: u64,
}

const NONE: &[u32] = &[];

#[rustfmt::skip]
const CASES: [Case; 12] = [
    Case { letter: 'A', limits: (16, 15), start: NONE, spilled: NONE, first: 0, target: NONE, refusal: None, ticks: (0, 0), ops: &[], gas: 0 },
    Case { letter: 'B', limits: (16, 15), start: &[7], spilled: NONE, first: 0, target: NONE, refusal: None, ticks: (0, 0), ops: &[Pop], gas: 3 },
    Case { letter: 'C', limits: (16, 15), start: NONE, spilled: NONE, first: 0, target: &[7], refusal: Some(Refusal::Missing), ticks: (0, 1), ops: &[], gas: 0 },
    Case { letter: 'D', limits: (16, 15), start: NONE, spilled: &[7, 7], first: 40, target: &[7], refusal: None, ticks: (0, 1), ops: &[Load(41)], gas: 6 },
    Case { letter: 'E', limits: (16, 15), start: &[1], spilled: NONE, first: 0, target: &[1, 1], refusal: None, ticks: (0, 1), ops: &[Dup(0)], gas: 3 },
    Case { letter: 'F', limits: (16, 15), start: &[3, 1, 2], spilled: NONE, first: 0, target: &[3, 2, 1], refusal: None, ticks: (0, 2), ops: &[Swap(1), Swap(2), Swap(1)], gas: 9 },
    Case { letter: 'G', limits: (16, 15), start: &[7, 9], spilled: &[8], first: 5, target: &[7, 8], refusal: None, ticks: (0, 2), ops: &[Load(5), Swap(2), Pop], gas: 12 },
    Case { letter: 'H', limits: (3, 2), start: &[3, 2, 9], spilled: NONE, first: 0, target: &[3, 2, 2], refusal: None, ticks: (0, 2), ops: &[Dup(1), Swap(3), Pop], gas: 9 },
    Case { letter: 'I', limits: (3, 1), start: &[3, 2, 9], spilled: NONE, first: 0, target: &[3, 2, 2], refusal: Some(Refusal::Stuck), ticks: (0, 1), ops: &[], gas: 0 },
    Case { letter: 'J', limits: (3, 0), start: &[3, 2, 9], spilled: NONE, first: 0, target: &[3, 2, 2], refusal: Some(Refusal::Missing), ticks: (0, 1), ops: &[], gas: 0 },
    Case { letter: 'K', limits: (1, 0), start: &[1, 2, 3], spilled: NONE, first: 0, target: &[3, 2, 1], refusal: None, ticks: (1, 5), ops: &[Store(0), Store(1), Load(0), Swap(1), Load(1), Swap(1)], gas: 30 },
    Case { letter: 'L', limits: (2, 1), start: &[2, 9, 1, 5], spilled: &[6], first: 0, target: &[2, 6, 1, 6], refusal: None, ticks: (1, 6), ops: &[Swap(1), Pop, Store(1), Load(0), Swap(2), Pop, Dup(1), Load(1)], gas: 33 },
];

const UNUSED: u32 = 0xdead_beef;

impl Case {
    fn limits(&self) -> Limits {
        Limits {
            max_swap_depth: self.limits.0,
            max_dup_depth: self.limits.1,
        }
    }

    /// What the case has come to, in a buffer of operations and one of slots.
    fn came(&self, answer: &Answer, ops: &[u32], spill: &[u32]) {
        let letter = self.letter;
        assert_eq!(answer.refusal, self.refusal, "{letter}");
        assert_eq!(
            (answer.shrink_ticks, answer.grow_ticks),
            self.ticks,
            "{letter}"
        );
        assert_eq!(listed(&ops[..2 * answer.ops]), self.ops, "{letter}");
        assert!(
            ops[2 * answer.ops..].iter().all(|&w| w == UNUSED),
            "{letter}"
        );
        assert!(
            spill[answer.slots..].iter().all(|&w| w == UNUSED),
            "{letter}"
        );
        if self.refusal.is_none() {
            assert_eq!(answer.stack, self.target, "{letter}");
        }
    }

    /// The case by `shuffle`: its answer and the two buffers.
    fn shuffled(&self) -> (Answer, Vec<u32>, Vec<u32>) {
        let (mut spill, mut ops) = lent(self.spilled);
        let filled = self.spilled.len();
        let lent = Spill {
            words: &mut spill,
            filled,
            first: self.first,
        };
        let answer = shuffle(self.start, lent, self.target, self.limits(), &mut ops);
        (answer, ops, spill)
    }
}

fn lent(spilled: &[u32]) -> (Vec<u32>, Vec<u32>) {
    let mut spill = vec![UNUSED; 16];
    spill[..spilled.len()].copy_from_slice(spilled);
    (spill, vec![UNUSED; 33])
}

fn listed(words: &[u32]) -> Vec<Op> {
    operations(words).map(Option::unwrap).collect()
}

#[test]
fn shuffle_cases_a_to_l() {
    for case in &CASES {
        let (answer, ops, spill) = case.shuffled();
        case.came(&answer, &ops, &spill);
        assert_eq!(answer.clone().done().err(), case.refusal);
    }
}

/// Case L with room for seven of its eight operations: no two fields of the answer are equal.
#[test]
fn shuffle_every_field_of_an_answer() {
    let case = &CASES[11];
    let (mut spill, mut ops) = lent(case.spilled);
    let lent = Spill {
        words: &mut spill,
        filled: 1,
        first: 0,
    };
    let answer = shuffle(case.start, lent, case.target, case.limits(), &mut ops[..15]);
    let refusal = Some(Refusal::Ops);
    let stack = vec![6, 1, 6];
    assert_eq!(
        answer,
        Answer {
            refusal,
            shrink_ticks: 1,
            grow_ticks: 6,
            ops: 7,
            slots: 2,
            stack
        }
    );
    assert_eq!(listed(&ops[..14]), case.ops[..7]);
    assert!(ops[14..].iter().all(|&w| w == UNUSED));
}

/// A job that each of the codes 1 to 5 refuses: the swap limit, the heights of the start and the target, the slots filled, the first slot.
const REFUSED: [(u8, usize, usize, usize, u32); 5] = [
    (0, 0, 0, 0, 0),
    (1, 1025, 0, 0, 0),
    (1, 0, 1025, 0, 0),
    (1, 0, 0, 17, 0),
    (1, 0, 0, 0, u32::MAX),
];

#[test]
fn shuffle_codes_1_to_5_change_nothing() {
    for ((max_swap_depth, start, target, filled, first), code) in REFUSED.into_iter().zip(1..) {
        let (mut spill, mut ops) = lent(NONE);
        let lent = Spill {
            words: &mut spill,
            filled,
            first,
        };
        let limits = Limits {
            max_swap_depth,
            max_dup_depth: 0,
        };
        let answer = shuffle(&vec![1; start], lent, &vec![1; target], limits, &mut ops);
        let refusal = Refusal::try_from(code).ok();
        assert_eq!(
            answer,
            Answer {
                refusal,
                shrink_ticks: 0,
                grow_ticks: 0,
                ops: 0,
                slots: 0,
                stack: vec![]
            }
        );
        assert!(spill.iter().chain(&ops).all(|&w| w == UNUSED));
    }
}

/// Before an odd number of words is looked at.
#[test]
fn check_codes_1_to_5_change_nothing() {
    for ((max_swap_depth, start, target, filled, first), code) in REFUSED.into_iter().zip(1..) {
        let (mut spill, ops) = lent(NONE);
        let lent = Spill {
            words: &mut spill,
            filled,
            first,
        };
        let limits = Limits {
            max_swap_depth,
            max_dup_depth: 0,
        };
        let verdict = check(&vec![1; start], lent, &vec![1; target], limits, &ops);
        let fault = Fault::try_from(code).ok();
        assert_eq!(
            verdict,
            Verdict {
                fault,
                index: 0,
                gas: 0,
                filled: 0
            }
        );
        assert!(spill.iter().all(|&w| w == UNUSED));
    }
}

/// Slices with no words: the pointer of an empty slice points nowhere.
#[test]
fn every_call_takes_empty_slices() {
    let spill = || Spill {
        words: &mut [],
        filled: 0,
        first: 0,
    };
    let none = Answer {
        refusal: None,
        shrink_ticks: 0,
        grow_ticks: 0,
        ops: 0,
        slots: 0,
        stack: vec![],
    };
    assert_eq!(shuffle(&[], spill(), &[], Limits::default(), &mut []), none);
    assert_eq!(
        shuffle(&[7], spill(), &[], Limits::default(), &mut []).refusal,
        Some(Refusal::Ops)
    );
    let mut state = State::new(&[], 0, 0).unwrap();
    assert_eq!(state.run(&mut [], &[], Limits::default(), &mut []), none);
    let verdict = Verdict {
        fault: None,
        index: 0,
        gas: 0,
        filled: 0,
    };
    assert_eq!(check(&[], spill(), &[], Limits::default(), &[]), verdict);
}

#[test]
fn check_what_cases_a_to_l_wrote() {
    for case in &CASES {
        let (answer, ops, spill) = case.shuffled();
        let (mut again, _) = lent(case.spilled);
        let lent = Spill {
            words: &mut again,
            filled: case.spilled.len(),
            first: case.first,
        };
        let verdict = check(
            case.start,
            lent,
            case.target,
            case.limits(),
            &ops[..2 * answer.ops],
        );
        let fault = case.refusal.map(|_| Fault::Unlike);
        let due = Verdict {
            fault,
            index: answer.ops,
            gas: case.gas,
            filled: answer.slots,
        };
        assert_eq!(verdict, due, "{}", case.letter);
        assert_eq!(verdict.accepted().err(), fault);
        assert_eq!(again, spill, "{}", case.letter);
    }
}

fn fault(fault: Fault, index: usize, gas: u64, filled: usize) -> Verdict {
    Verdict {
        fault: Some(fault),
        index,
        gas,
        filled,
    }
}

/// A list for each fault, on a stack of so many 1s, with one slot of number 5, limits 2/1 and the target 1.
#[test]
fn check_names_each_fault() {
    let lists: [(usize, &[u32], Verdict); 12] = [
        (1, &[3], fault(Fault::Odd, 0, 0, 0)),
        (1, &[3, 1], fault(Fault::Unknown, 0, 0, 0)),
        (1, &[1, 0], fault(Fault::SwapFar, 0, 0, 0)),
        (1, &[1, 1], fault(Fault::SwapBelow, 0, 0, 0)),
        (1, &[2, 2], fault(Fault::DupFar, 0, 0, 0)),
        (1, &[2, 1], fault(Fault::DupBelow, 0, 0, 0)),
        (1024, &[2, 0], fault(Fault::TooHigh, 0, 0, 0)),
        (1, &[3, 0, 3, 0], fault(Fault::NoneLeft, 1, 3, 0)),
        (1, &[4, 6], fault(Fault::OtherSlot, 0, 0, 0)),
        (1, &[2, 0, 4, 5, 2, 0, 4, 6], fault(Fault::NoSlot, 3, 12, 1)),
        (1, &[5, 5], fault(Fault::NotFilled, 0, 0, 0)),
        (1, &[3, 0], fault(Fault::Unlike, 1, 3, 0)),
    ];
    for ((height, words, due), code) in lists.into_iter().zip(30..) {
        let mut slot = [UNUSED];
        let spill = Spill {
            words: &mut slot,
            filled: 0,
            first: 5,
        };
        let limits = Limits {
            max_swap_depth: 2,
            max_dup_depth: 1,
        };
        let verdict = check(&vec![1; height], spill, &[1], limits, words);
        assert_eq!(verdict, due);
        assert_eq!(verdict.fault.map(Fault::code), Some(code));
        assert_eq!(slot, [if due.filled == 1 { 1 } else { UNUSED }]);
    }
}

#[test]
fn run_cases_a_to_l() {
    for case in &CASES {
        let (mut spill, mut ops) = lent(case.spilled);
        let mut state = State::new(case.start, case.first, case.spilled.len()).unwrap();
        assert_eq!((state.stack(), state.written()), (case.start, 0));
        let answer = state.run(&mut spill, case.target, case.limits(), &mut ops);
        case.came(&answer, &ops, &spill);
        assert_eq!(state.stack(), answer.stack);
        assert_eq!(
            (state.first(), state.filled(), state.written()),
            (case.first, answer.slots, answer.ops)
        );
    }
}

/// Case K, then three more runs on the state that it leaves: to no values, one that is refused, and to a value that only a slot holds.
/// Operations go on after those written, and the checker accepts them all as one list.
#[test]
fn run_one_after_the_other_on_one_state() {
    let case = &CASES[10];
    let limits = case.limits();
    let (mut spill, mut ops) = lent(case.spilled);
    let mut state = State::new(case.start, 0, 0).unwrap();
    let answer = state.run(&mut spill, case.target, limits, &mut ops);
    case.came(&answer, &ops, &spill);
    let answer = state.run(&mut spill, &[], limits, &mut ops);
    let stack = vec![];
    assert_eq!(
        answer,
        Answer {
            refusal: None,
            shrink_ticks: 1,
            grow_ticks: 0,
            ops: 3,
            slots: 2,
            stack
        }
    );
    let before = state.clone();
    let no_swap = Limits {
        max_swap_depth: 0,
        max_dup_depth: 0,
    };
    assert_eq!(
        state.run(&mut spill, &[2], no_swap, &mut ops).refusal,
        Some(Refusal::Limit)
    );
    assert_eq!(state, before);
    let answer = state.run(&mut spill, &[2], limits, &mut ops);
    let stack = vec![2];
    assert_eq!(
        answer,
        Answer {
            refusal: None,
            shrink_ticks: 0,
            grow_ticks: 1,
            ops: 1,
            slots: 2,
            stack
        }
    );
    assert_eq!((state.stack(), state.written()), (&[2][..], 10));
    assert_eq!(
        listed(&ops[..20]),
        [case.ops, &[Pop, Pop, Pop, Load(1)]].concat()
    );
    assert!(ops[20..].iter().all(|&w| w == UNUSED));

    let (mut again, _) = lent(case.spilled);
    let lent = Spill {
        words: &mut again,
        filled: 0,
        first: 0,
    };
    let verdict = check(case.start, lent, &[2], limits, &ops[..20]);
    assert_eq!(
        verdict,
        Verdict {
            fault: None,
            index: 10,
            gas: 45,
            filled: 2
        }
    );
    assert_eq!(again, spill);
}

#[test]
fn a_state_has_at_most_1024_values() {
    assert_eq!(State::new(&[1; 1024], 0, 0).unwrap().stack(), [1; 1024]);
    assert_eq!(State::new(&[1; 1025], 0, 0), Err(Refusal::Start));
    assert_eq!(State::new(&[1; 65537], 0, 0), Err(Refusal::Start));
}

#[test]
fn a_code_has_document_01_s_number_and_name() {
    let names = [
        "LIMIT", "START", "TARGET", "FILLED", "SLOTS", "MISSING", "FULL", "STUCK", "TICKS",
        "SPILL", "OPS", "INSIDE",
    ];
    for (code, name) in (1..).zip(names) {
        let refusal = Refusal::try_from(code).unwrap();
        assert_eq!((refusal.code(), refusal.name()), (code, name));
    }
    let codes: Vec<u32> = Fault::ALL.iter().map(|f| f.code()).collect();
    assert_eq!(codes, (1..=5).chain(30..=41).collect::<Vec<u32>>());
    assert!(
        Refusal::try_from(0).is_err()
            && Refusal::try_from(13).is_err()
            && Fault::try_from(6).is_err()
    );
    let error: Box<dyn std::error::Error> = Box::new(Refusal::Missing);
    assert_eq!(
        error.to_string(),
        "MISSING (6): the value to load is not stored"
    );
}

#[test]
fn an_operation_has_two_words_and_a_printed_form() {
    let ops = [Swap(255), Dup(0), Pop, Store(5), Load(u32::MAX)];
    let words = [1, 255, 2, 0, 3, 0, 4, 5, 5, u32::MAX];
    assert_eq!(ops.map(Op::to_words).concat(), words);
    assert_eq!(listed(&words), ops);
    let none = [0, 0, 6, 0, 3, 1, 1, 256, 2, 256];
    assert!(operations(&none).all(|op| op.is_none()));
    let printed = ops.map(|op| op.to_string()).join(" ");
    assert_eq!(printed, "Swap(255) Dup(0) Pop store(5) load(4294967295)");
}
