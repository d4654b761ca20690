//! The proved evaluator, through its C call.

mod heap_cases;

use heap_cases::{all, Case};
use host::call::{evaluate, raw_evaluate, EVALUATION_BYTES};
use host::evaluators::reply_line;
use host::independent_evaluator;
use std::fs;
use std::hint::black_box;
use std::path::Path;
use std::thread;

const HEADER: &str = include_str!("../../include/tabeval.h");
const STACK: usize = 1 << 20;

/// Every pair worked out by hand.
fn expect_replies() {
    let mut wrong = Vec::new();
    for case in all() {
        let reply = reply_line(evaluate(&case.checker, &case.heap));
        if reply != format!("{}\n", case.reply) {
            wrong.push(format!(
                "{}: expected {}, got {reply:?}",
                case.name, case.reply
            ));
        }
    }
    assert!(wrong.is_empty(), "{}", wrong.join("\n"));
}

#[test]
fn every_pair_gets_its_reply() {
    expect_replies();
}

/// What the reply buffer must hold: the three numbers, low byte first.
fn reply_bytes(case: &Case) -> Vec<u8> {
    let numbers = case.reply.split(',');
    numbers
        .flat_map(|number| number.parse::<u32>().expect(case.name).to_le_bytes())
        .collect()
}

/// The buffer is the middle of a filled space, of which nothing else may change.
#[test]
fn just_the_buffer_is_written() {
    const FILL: u8 = 0xA5;
    for case in all() {
        let mut file = case.checker.clone();
        let mut heap = case.heap.clone();
        let mut space = [FILL; 3 * EVALUATION_BYTES];
        let returned = raw_evaluate(
            &file,
            &heap,
            &mut space[EVALUATION_BYTES..2 * EVALUATION_BYTES],
        );

        let [before, reply, after] =
            [0, 1, 2].map(|i| &space[i * EVALUATION_BYTES..][..EVALUATION_BYTES]);
        assert_eq!(reply, reply_bytes(&case), "{}", case.name);
        assert_eq!(reply[..4], returned.to_le_bytes(), "{}", case.name);
        assert_eq!(before, [FILL; EVALUATION_BYTES], "{}", case.name);
        assert_eq!(after, [FILL; EVALUATION_BYTES], "{}", case.name);
        // Without black_box the compiler may take it that a shared slice stays.
        assert_eq!(*black_box(&mut file), case.checker, "{}", case.name);
        assert_eq!(*black_box(&mut heap), case.heap, "{}", case.name);
    }
}

/// 18 comes before any other number, and nothing is written.
#[test]
fn other_buffer_lengths() {
    let good: (&[u8], &[u8]) = (b"", b"D,siz,1,1,1,0\n");
    let long = [b'0'; 60_001];
    assert_eq!(evaluate(good.0, good.1), [0, 0, 0]);
    for (file, heap) in [good, (b"", b""), (b"?", b"?"), (&long, &long)] {
        for length in (0..=32).filter(|&length| length != EVALUATION_BYTES) {
            let filled: Vec<u8> = (1..=length as u8).collect();
            let mut reply = filled.clone();
            assert_eq!(raw_evaluate(file, heap, &mut reply), 18, "{length}");
            assert_eq!(reply, filled, "{length}");
        }
    }
}

/// One file may be both; they are only read.
#[test]
fn the_same_bytes_as_both_files() {
    let heap = b"D,siz,1,1,1,0\n";
    assert_eq!(evaluate(heap, heap), [2, 1, 1]);
    let terms = b"T,nul,0,0,0,0\n";
    assert_eq!(evaluate(terms, terms), [2, 2, 1]);
    assert_eq!(evaluate(b"", b""), [3, 2, 1]);
}

/// The files of examples/ with this ending.
fn examples(ending: &str) -> Vec<(String, Vec<u8>)> {
    let folder = Path::new(env!("CARGO_MANIFEST_DIR")).join("../examples");
    let entries = fs::read_dir(folder).unwrap().map(|entry| entry.unwrap());
    let named = entries.map(|entry| {
        let name = entry.file_name().into_string().unwrap();
        (name, fs::read(entry.path()).unwrap())
    });
    let files: Vec<_> = named.filter(|(name, _)| name.ends_with(ending)).collect();
    assert!(files.len() > 10, "{ending}");
    files
}

#[test]
fn every_example_with_every_heap() {
    let heaps = examples(".heap");
    for (name, file) in examples(".tab") {
        for (of, heap) in &heaps {
            let independent = independent_evaluator::evaluate(&file, heap);
            assert_eq!(evaluate(&file, heap), independent, "{name} {of}");
        }
    }
}

/// The file with one byte made another, which often is right in another place.
fn damaged(file: &[u8], random: &mut u32) -> Vec<u8> {
    let mut next = |below: usize| {
        *random = random.wrapping_mul(1_664_525).wrapping_add(1_013_904_223);
        (*random >> 8) as usize % below
    };
    let mut damaged = file.to_vec();
    if !file.is_empty() {
        damaged[next(file.len())] = b"0123456789,\nTACSD"[next(17)];
    }
    damaged
}

/// Beside the replies worked out by hand: two evaluators written apart agree.
#[test]
fn damaged_files_get_the_independent_evaluators_reply() {
    let mut random = 1;
    for case in all() {
        for _ in 0..10 {
            let pairs = [
                (damaged(&case.checker, &mut random), case.heap.clone()),
                (case.checker.clone(), damaged(&case.heap, &mut random)),
            ];
            for (file, heap) in pairs {
                let independent = independent_evaluator::evaluate(&file, &heap);
                let text = [&file[..], b"and\n", &heap].concat();
                let text = String::from_utf8_lossy(&text);
                assert_eq!(
                    evaluate(&file, &heap),
                    independent,
                    "{}:\n{text}",
                    case.name
                );
            }
        }
    }
}

#[test]
fn nothing_is_kept_between_calls() {
    let cases = all();
    let reply = |case: &Case| evaluate(&case.checker, &case.heap);
    let forward: Vec<_> = cases.iter().map(reply).collect();
    let mut backward: Vec<_> = cases.iter().rev().map(reply).collect();
    backward.reverse();
    assert_eq!(forward, backward);
    for (case, numbers) in cases.iter().zip(forward) {
        assert_eq!([reply(case), reply(case)], [numbers; 2], "{}", case.name);
    }
}

#[test]
fn calls_at_once_do_not_disturb_each_other() {
    thread::scope(|scope| {
        for _ in 0..4 {
            scope.spawn(expect_replies);
        }
    });
}

/// The header promises it.
#[test]
fn the_stated_stack_is_enough() {
    assert!(HEADER.contains("- one MiB of stack.\n"));
    let thread = thread::Builder::new().stack_size(STACK);
    thread.spawn(expect_replies).unwrap().join().unwrap();
}
