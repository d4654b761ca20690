//! The files of examples/ and their damaged neighbours get the replies that
//! examples/README.md works out by hand.

mod page;

use std::collections::BTreeSet;
use std::fs;
use std::path::{Path, PathBuf};

use host::independent::TermWord;
use host::meaning::{assumptions, Heap, Value, Values, Variable};
use host::models::Question;
use host::{call, independent};
use page::edited;

const PAGE: &str = include_str!("../../examples/README.md");
const README: &str = include_str!("../../README.md");

fn folder() -> PathBuf {
    Path::new(env!("CARGO_MANIFEST_DIR")).join("../examples")
}

fn example(name: &str) -> String {
    fs::read_to_string(folder().join(name)).expect(name)
}

/// File, claim, reply: the files of the first table, then those of the false
/// claims.
fn files() -> Vec<[String; 3]> {
    let mut files = page::rows(PAGE, ["File", "Claim", "Reply"]);
    files.extend(false_claims().map(|[name, claim, _, reply]| [name, claim, reply]));
    files
}

/// File, claim, the accepted files that it stands beside, reply.
fn false_claims() -> impl Iterator<Item = [String; 4]> {
    let columns = ["File", "Claim, which is false", "Neighbour of", "Reply"];
    page::rows(PAGE, columns).into_iter()
}

/// File, edit, why it is refused, reply.
fn edits() -> Vec<[String; 4]> {
    page::rows(PAGE, ["File", "Edit", "Why it is refused", "Reply"])
}

/// File, edit, what it mends, reply.
fn mends() -> Vec<[String; 4]> {
    page::rows(PAGE, ["File", "Edit", "What it mends", "Reply"])
}

/// The reply lines of the proved checker and of the independent one.
fn replies(file: &str) -> [String; 2] {
    let numbers = call::check(file.as_bytes());
    let word = if numbers[0] == 0 { "yes" } else { "no" };
    let numbers = numbers.map(|number| number.to_string()).join(",");
    let other = independent::check(file.as_bytes());
    [
        format!("{word},{numbers}\n"),
        independent::reply_line(&other),
    ]
}

fn expect(file: &str, reply: &str, about: &str) {
    let reply = format!("{reply}\n");
    assert_eq!(replies(file), [reply.clone(), reply], "{about}");
}

#[test]
fn a_row_for_every_file_and_a_file_for_every_row() {
    let entries = fs::read_dir(folder()).unwrap();
    let mut there: Vec<String> = entries
        .map(|entry| entry.unwrap().file_name().into_string().unwrap())
        .filter(|name| !["README.md", "night.replies"].contains(&name.as_str()))
        .filter(|name| !name.ends_with(".heap"))
        .collect();
    there.sort();
    let mut named: Vec<String> = files().into_iter().map(|[name, ..]| name).collect();
    named.sort();
    assert_eq!(named, there);
}

/// The claims, the terms and the drawings of a file stand under its heading.
#[test]
fn a_section_for_every_file() {
    let sections = PAGE.lines().filter_map(|line| line.strip_prefix("### "));
    let named = files().into_iter().map(|[name, ..]| name);
    let sections: Vec<String> = sections.map(|name| format!("{name}.tab")).collect();
    assert_eq!(sections, named.collect::<Vec<_>>());
}

#[test]
fn every_file_gets_its_reply() {
    for [name, _, reply] in files() {
        expect(&example(&name), &reply, &name);
    }
}

#[test]
fn every_accepted_file_has_a_refused_neighbour() {
    let edits = edits();
    for [name, _, reply] in files() {
        let edited = edits.iter().any(|[edited, ..]| *edited == name);
        assert_eq!(edited, reply.starts_with("yes,"), "{name}");
    }
    for [name, edit, _, reply] in edits {
        assert!(reply.starts_with("no,"), "{name} {edit}");
        expect(&edited(&example(&name), &edit), &reply, &edit);
    }
}

/// The edit of a refused file is accepted.
#[test]
fn every_mended_file_gets_its_reply() {
    let refused: Vec<String> = files()
        .into_iter()
        .filter(|[_, _, reply]| reply.starts_with("no,"))
        .map(|[name, ..]| name)
        .collect();
    for [name, edit, _, reply] in mends() {
        assert!(refused.contains(&name), "{name}");
        assert!(reply.starts_with("yes,"), "{name} {edit}");
        expect(&edited(&example(&name), &edit), &reply, &edit);
    }
}

/// The commands of the page that check an example, each with the reply on the
/// next line.
#[test]
fn the_commands_of_the_readme() {
    let mut commands = 0;
    let mut lines = README.lines();
    while let Some(line) = lines.next() {
        let file = if let Some(name) = line.strip_prefix("    $ ./tabcheck < examples/") {
            example(name)
        } else if let Some(rest) = line.strip_prefix("    $ sed '") {
            let (edit, name) = rest.split_once("' examples/").expect(line);
            let name = name.strip_suffix(" | ./tabcheck").expect(line);
            edited(&example(name), edit)
        } else {
            continue;
        };
        expect(&file, lines.next().unwrap().trim_start(), line);
        commands += 1;
    }
    assert_eq!(commands, 7);
}

/// No accepted file is left out but that of the acknowledgement routine, whose
/// neighbour stands in the first table.
#[test]
fn every_accepted_file_has_a_false_neighbour() {
    let accepted = files().into_iter();
    let accepted = accepted.filter(|[_, _, reply]| reply.starts_with("yes,"));
    let accepted = accepted.map(|[name, ..]| name);
    let cells: Vec<String> = false_claims().map(|[_, _, of, _]| of).collect();
    let neighbours: Vec<&str> = cells.iter().flat_map(|of| of.split(", ")).collect();
    let left_out = accepted.filter(|name| !neighbours.contains(&name.as_str()));
    let left_out: Vec<String> = left_out.collect();
    assert_eq!(left_out, ["acknowledgement_spares_last_jog.tab"]);
    for [name, _, _, reply] in false_claims() {
        assert!(reply.starts_with("no,"), "{name}");
    }
}

/// The lines of an example that begin with a letter.
fn lines_with(file: &str, letter: char) -> Vec<&str> {
    let lines = file.lines();
    lines.filter(|line| line.starts_with(letter)).collect()
}

/// Of a claim that is closed twice, by a chain of steps and by one `bck`, the
/// second file has the terms and the assumptions of the first, or fewer terms.
#[test]
fn the_same_claim_by_steps_and_by_bck() {
    let names = files().into_iter().map(|[name, ..]| name);
    let by_steps: Vec<String> = names
        .filter_map(|name| Some(name.strip_suffix("_by_steps.tab")?.to_string()))
        .collect();
    assert_eq!(by_steps.len(), 2);
    for claim in by_steps {
        let steps = example(&format!("{claim}_by_steps.tab"));
        let bck = example(&format!("{claim}_by_bck.tab"));
        assert!(!steps.contains("S,bck"), "{claim}");
        assert_eq!(lines_with(&bck, 'S'), ["S,bck,0,0,0,0"], "{claim}");
        assert_eq!(lines_with(&bck, 'A'), lines_with(&steps, 'A'), "{claim}");
        let terms = lines_with(&steps, 'T');
        assert!(terms.starts_with(&lines_with(&bck, 'T')), "{claim}");
    }
}

#[test]
fn the_missing_case_is_all_that_is_missing() {
    let whole = example("acknowledgement_spares_last_jog.tab");
    let part = example("acknowledgement_third_case_missing.tab");
    let missing = whole.strip_prefix(&part).unwrap();
    assert_eq!(missing.lines().count(), 4);
}

fn values<const N: usize>(given: [(TermWord, u32, Value); N]) -> Values {
    let given = given.map(|(word, name, value)| (Variable { word, name }, value));
    Values {
        given: given.into(),
    }
}

/// References nul, x = 1 and j = 2; fields ack = 0 and done = 1; x.ack is j.
#[test]
fn the_routine_can_hit_the_record() {
    let heap = Heap {
        references: 3,
        fields: 2,
        classes: 1,
        order: vec![vec![true]],
        allocated: vec![false, true, true],
        typ: vec![0; 3],
        dty: vec![0; 2],
    };
    let before = vec![vec![0, 0], vec![2, 0], vec![0, 0]];
    let values = values([
        (TermWord::Rfv, 1, Value::Reference(1)),
        (TermWord::Rfv, 2, Value::Reference(2)),
        (TermWord::Rfv, 3, Value::Reference(1)),
        (TermWord::Rgv, 1, Value::Region(BTreeSet::from([1]))),
        (TermWord::Arv, 1, Value::HeapValue(before)),
        (TermWord::Fnv, 1, Value::Field(0)),
        (TermWord::Fnv, 2, Value::Field(1)),
        (TermWord::Fnv, 3, Value::Field(1)),
    ]);
    let holds = |name| assumptions(example(name).as_bytes(), &heap, &values);
    assert_eq!(holds("acknowledgement_hits_last_jog.tab"), Some(true));
    assert_eq!(holds("acknowledgement_spares_last_jog.tab"), Some(false));
}

/// The models of a file among all heaps with two references beside nul, two
/// fields and one class.
fn models_with_two_objects(file: &str) -> usize {
    let question = Question::of_file(file.as_bytes()).unwrap();
    let search = question.models_of_size([3, 2, 1], 400_000);
    assert!(search.complete);
    search.found
}

/// A claim that no steps close, and no such heap breaks. Without one of its
/// inclusions it breaks.
#[test]
fn two_objects_do_not_break_the_claim_out_of_reach() {
    let file = example("two_regions_inside_each_others_images.tab");
    assert_eq!(models_with_two_objects(&file), 0);
    for without in ["12s/.*/A,eq,9,9,0,0/", "13s/.*/A,eq,10,10,0,0/"] {
        let weaker = edited(&file, without);
        assert_ne!(models_with_two_objects(&weaker), 0, "{without}");
    }
}

/// A receiver that has just started: nul, and a reference that is not
/// allocated.
#[test]
fn before_the_first_allocation() {
    let heap = Heap {
        references: 2,
        fields: 1,
        classes: 1,
        order: vec![vec![true]],
        allocated: vec![false; 2],
        typ: vec![0; 2],
        dty: vec![0],
    };
    let values = values([
        (TermWord::Rfv, 1, Value::Reference(1)),
        (TermWord::Rgv, 1, Value::Region(BTreeSet::new())),
        (TermWord::Arv, 1, Value::HeapValue(vec![vec![1]; 2])),
        (TermWord::Fnv, 1, Value::Field(0)),
    ]);
    let holds = |file: String| assumptions(file.as_bytes(), &heap, &values);
    let start_up = example("start_up_writes_nothing.tab");
    let claimed = edited(&start_up, "10s/.*/A,eq,8,6,0,0/");
    assert_eq!(holds(start_up), Some(false));
    assert_eq!(holds(claimed), Some(true));
    let something = example("something_is_allocated.tab");
    let unsaid = edited(&something, "6s/.*/A,eq,3,3,0,0/");
    assert_eq!(holds(something), Some(false));
    assert_eq!(holds(unsaid), Some(true));
}
