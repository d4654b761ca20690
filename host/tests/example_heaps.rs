//! The heaps of examples/ and their damaged neighbours get the replies that
//! examples/README.md works out by hand, and README.md for the crane receiver.

mod page;

use std::collections::BTreeSet;
use std::fs;
use std::path::{Path, PathBuf};

use host::evaluators::{evaluators, reply_line};
use host::independent;
use page::edited;

const PAGE: &str = include_str!("../../examples/README.md");
const README: &str = include_str!("../../README.md");

fn folder() -> PathBuf {
    Path::new(env!("CARGO_MANIFEST_DIR")).join("../examples")
}

fn example(name: &str) -> String {
    fs::read_to_string(folder().join(name)).expect(name)
}

/// File, heap, what the heap is, reply.
fn heaps() -> Vec<[String; 4]> {
    page::rows(PAGE, ["File", "Heap", "What the heap is", "Reply"])
}

/// File, heap, edit, why, reply.
fn edits() -> Vec<[String; 5]> {
    page::rows(PAGE, ["File", "Heap", "Edit", "Why", "Reply"])
}

/// The names of the heap files.
fn there() -> BTreeSet<String> {
    let entries = fs::read_dir(folder()).unwrap();
    let names = entries.map(|entry| entry.unwrap().file_name().into_string().unwrap());
    names.filter(|name| name.ends_with(".heap")).collect()
}

/// Every evaluator gives this reply.
fn expect(file: &str, heap: &str, reply: &str, about: &str) {
    for (name, evaluate) in evaluators() {
        let said = reply_line(evaluate(file.as_bytes(), heap.as_bytes()));
        assert_eq!(said, format!("{reply}\n"), "{name}: {about}");
    }
}

#[test]
fn a_row_for_every_heap_and_a_heap_for_every_row() {
    let named = heaps().into_iter().map(|[_, heap, _, _]| heap);
    assert_eq!(named.collect::<BTreeSet<_>>(), there());
    for [name, ..] in heaps() {
        assert!(folder().join(&name).is_file(), "{name}");
    }
}

#[test]
fn every_heap_gets_its_reply() {
    for [name, heap, _, reply] in heaps() {
        expect(&example(&name), &example(&heap), &reply, &heap);
    }
}

#[test]
fn every_edited_heap_gets_its_reply() {
    for [name, heap, edit, _, reply] in edits() {
        let edited = edited(&example(&heap), &edit);
        expect(&example(&name), &edited, &reply, &edit);
    }
}

/// A false claim has its heap, of the same name. An accepted file is tried, and
/// never gets 0,0,0.
#[test]
fn what_breaks_and_what_does_not() {
    let mut broken = 0;
    for [name, heap, _, reply] in heaps() {
        let yes = independent::check(example(&name).as_bytes()).yes;
        if reply == "0,0,0" {
            assert!(!yes, "{name}");
            assert_eq!(name.strip_suffix(".tab"), heap.strip_suffix(".heap"));
            broken += 1;
        }
    }
    let columns = ["File", "Claim, which is false", "Neighbour of", "Reply"];
    let false_claims = page::rows(PAGE, columns);
    assert_eq!(broken, false_claims.len() + 1);
    let tried: BTreeSet<String> = heaps().into_iter().map(|[name, ..]| name).collect();
    for [_, _, accepted, _] in false_claims {
        for name in accepted.split(", ") {
            assert!(tried.contains(name), "{name}");
        }
    }
}

/// The D lines that the page explains, a text for each run of them.
fn said_of_heaps() -> Vec<String> {
    let mut blocks = Vec::new();
    let mut block = String::new();
    for line in PAGE.lines() {
        match line.strip_prefix("    D,") {
            Some(rest) => {
                let (fields, words) = rest.split_once("    ").expect(line);
                assert!(!words.trim().is_empty(), "{line}");
                block.push_str(&format!("D,{fields}\n"));
            }
            None if block.is_empty() => (),
            None => blocks.push(std::mem::take(&mut block)),
        }
    }
    blocks
}

#[test]
fn the_page_says_each_line_of_each_heap_once() {
    let mut said = said_of_heaps();
    let mut files: Vec<String> = there().iter().map(|name| example(name)).collect();
    said.sort();
    files.sort();
    assert_eq!(said, files);
}

#[test]
fn every_word_is_used() {
    let mut words = BTreeSet::new();
    for name in there() {
        let heap = example(&name);
        words.extend(heap.lines().map(|line| line[2..5].to_string()));
    }
    let all = "siz alc typ dty sub rfv fnv clv rgv arv".split(' ');
    assert_eq!(words, all.map(String::from).collect());
}

/// The heap of the crane receiver, line by line, and without each of its lines.
#[test]
fn the_heap_of_the_readme() {
    let file = example("acknowledgement_hits_last_jog.tab");
    let heap = example("acknowledgement_hits_last_jog.heap");
    let columns = ["Line", "D line", "What it says", "Without it"];
    let rows = page::rows(README, columns);
    let lines: Vec<String> = rows
        .iter()
        .map(|[_, line, ..]| format!("{line}\n"))
        .collect();
    assert_eq!(lines.concat(), heap);
    for (count, [number, _, _, reply]) in (1..).zip(rows) {
        assert_eq!(number, count.to_string());
        let edit = format!("{number}d");
        expect(&file, &edited(&heap, &edit), &reply, &edit);
    }
}

/// The commands of the page, each with the reply on the next line.
#[test]
fn the_commands_of_the_readme() {
    let mut commands = 0;
    let mut lines = README.lines();
    while let Some(line) = lines.next() {
        let Some(names) = line.strip_prefix("    $ ./tabeval ") else {
            continue;
        };
        let (file, heap) = names.split_once(' ').expect(line);
        let [file, heap] =
            [file, heap].map(|name| example(name.strip_prefix("examples/").unwrap()));
        expect(&file, &heap, lines.next().unwrap().trim_start(), line);
        commands += 1;
    }
    assert_eq!(commands, 3);
}
