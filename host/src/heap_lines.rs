//! Writes finite heaps as heap files.

use crate::meaning::{Heap, Value, Values, Variable};
use crate::random::Random;

/// The lines of a heap file that says all there is to say of a heap and of the
/// values of variables, also what is 0. The sizes come first, and what is
/// allocated before the members of regions.
pub fn heap_lines(heap: &Heap, values: &Values) -> Vec<String> {
    let mut lines = vec![d_line("siz", &[heap.references, heap.fields, heap.classes])];
    for reference in heap.all() {
        lines.push(d_line("alc", &[reference]));
    }
    for (reference, class) in heap.typ.iter().enumerate() {
        lines.push(d_line("typ", &[reference, *class]));
    }
    for (field, class) in heap.dty.iter().enumerate() {
        lines.push(d_line("dty", &[field, *class]));
    }
    lines.extend(order_lines(heap));
    for (variable, value) in &values.given {
        lines.extend(value_lines(variable, value));
    }
    lines
}

/// The lines as bytes, each ended by LF.
pub fn heap_file(lines: &[String]) -> Vec<u8> {
    let mut file = Vec::new();
    for line in lines {
        file.extend_from_slice(line.as_bytes());
        file.push(b'\n');
    }
    file
}

/// A line with these numbers from field 3 on, and 0 in what is left.
fn d_line(word: &str, numbers: &[usize]) -> String {
    let mut fields = [0; 4];
    fields[..numbers.len()].copy_from_slice(numbers);
    let [a, b, c, d] = fields;
    format!("D,{word},{a},{b},{c},{d}")
}

/// "a class is always under itself", so that isn't said.
fn order_lines(heap: &Heap) -> Vec<String> {
    let mut lines = Vec::new();
    for (lower, row) in heap.order.iter().enumerate() {
        for (upper, under) in row.iter().enumerate() {
            if *under && lower != upper {
                lines.push(d_line("sub", &[lower, upper]));
            }
        }
    }
    lines
}

fn value_lines(variable: &Variable, value: &Value) -> Vec<String> {
    let name = variable.name as usize;
    match value {
        Value::Reference(reference) => vec![d_line("rfv", &[name, *reference])],
        Value::Field(field) => vec![d_line("fnv", &[name, *field])],
        Value::Class(class) => vec![d_line("clv", &[name, *class])],
        Value::Region(members) => {
            let members = members.iter();
            members
                .map(|member| d_line("rgv", &[name, *member]))
                .collect()
        }
        Value::HeapValue(table) => table_lines(name, table),
    }
}

fn table_lines(name: usize, table: &[Vec<usize>]) -> Vec<String> {
    let mut lines = Vec::new();
    for (reference, row) in table.iter().enumerate() {
        for (field, value) in row.iter().enumerate() {
            lines.push(d_line("arv", &[name, reference, field, *value]));
        }
    }
    lines
}

// ---------------------------------------------------------------------------
// The same said otherwise
// ---------------------------------------------------------------------------

/// The same heap and values: the lines after the first in another order, and
/// some of those left out that say 0.
pub fn said_otherwise(lines: &[String], random: &mut Random) -> Vec<String> {
    let mut rest = lines[1..].to_vec();
    rest.retain(|line| !says_0(line) || random.chance(1, 2));
    let is_member = |line: &String| line.starts_with("D,rgv,");
    let (members, mut said): (Vec<String>, Vec<String>) = rest.into_iter().partition(is_member);
    random.shuffle(&mut said);
    for member in members {
        // "already allocated"
        let allocation = format!("D,alc,{},0,0,0", field(&member, 4));
        let before = said.iter().position(|line| *line == allocation);
        let first = before.map_or(0, |index| index + 1);
        let place = first + random.below(said.len() - first + 1);
        said.insert(place, member);
    }
    said.insert(0, lines[0].clone());
    said
}

/// Whether a line gives the value 0: "What isn't said is 0 or absent".
fn says_0(line: &str) -> bool {
    match field(line, 2) {
        "typ" | "dty" | "rfv" | "fnv" | "clv" => field(line, 4) == "0",
        "arv" => field(line, 6) == "0",
        _ => false,
    }
}

/// A field of a line, from 1.
fn field(line: &str, number: usize) -> &str {
    line.split(',').nth(number - 1).unwrap_or_default()
}
