//! Reads the enums of the C headers.

/// The numbers of an enum of a header, with what their comments say.
pub fn constants(header: &'static str, name: &str) -> Vec<(usize, &'static str)> {
    let (_, rest) = header.split_once(&format!("enum {name} {{\n")).expect(name);
    let (body, _) = rest.split_once("\n};").expect(name);
    body.lines().map(constant).collect()
}

fn constant(line: &'static str) -> (usize, &'static str) {
    let (_, value) = line.split_once(" = ").expect(line);
    let (number, comment) = value.split_once("/*").expect(line);
    let number = number.trim().trim_end_matches(',');
    let comment = comment.trim_end_matches("*/");
    (number.parse().expect(line), comment.trim())
}
