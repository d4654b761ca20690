//! Lines that aren't shaped as replies, the shapes of numbers apart, and bytes
//! that aren't lines.

use super::{night, second_lines, second_of_three, Night, NO, YES};

pub fn nights() -> Vec<Night> {
    let groups = [
        good_ones(),
        answers(),
        missing_fields(),
        fields_too_many(),
        other_lines(),
        answers_of_odd_bytes(),
        ends_of_lines(),
    ];
    groups.into_iter().flatten().collect()
}

/// What the bad lines below are the neighbours of.
fn good_ones() -> Vec<Night> {
    let replies = second_of_three(YES.as_bytes());
    let accepted = night("shape: a good yes", replies, "3,2,5,1,0,1");
    let replies = second_of_three(NO.as_bytes());
    let refused = night("shape: a good no", replies, "3,1,5,1,0,1");
    vec![accepted, refused]
}

fn answers() -> Vec<Night> {
    let for_yes = [
        "", "y", "ye", "yess", "yyes", "Yes", "yEs", "yeS", "YES", " yes", "yes ", "yet", "eys",
        "yesno", "true", "0",
    ];
    let for_no = [
        "", "n", "noo", "nno", "No", "nO", "NO", " no", "no ", "on", "nos", "13",
    ];
    let yes = for_yes.map(|word| format!("{word},0,0,7,6,5,4,0"));
    let no = for_no.map(|word| format!("{word},13,9,0,0,0,0,8"));
    second_lines("answer", &[&yes[..], &no].concat())
}

/// The first has the form of a reply before it had a place.
fn missing_fields() -> Vec<Night> {
    let lines = [
        "yes,0,0,7,6,5,4",
        "yes,0,0,7,6,5,0",
        "yes,0,0,7,6,4,0",
        "yes,0,0,7,5,4,0",
        "yes,0,0,6,5,4,0",
        "yes,0,7,6,5,4,0",
        "0,0,7,6,5,4,0",
        "no,13,9,0,0,0,0",
        "no,13,9,0,0,0,8",
        "no,13,0,0,0,0,8",
        "no,9,0,0,0,0,8",
        "13,9,0,0,0,0,8",
        "yes,0,0",
        "yes,0",
        "yes,",
        "yes",
        "no",
        "0",
    ];
    second_lines("missing", &lines)
}

fn fields_too_many() -> Vec<Night> {
    let lines = [
        "yes,0,0,7,6,5,4,0,0",
        "yes,0,0,7,6,5,4,0,",
        "yes,0,0,7,6,5,4,,0",
        "yes,,0,0,7,6,5,4,0",
        ",yes,0,0,7,6,5,4,0",
        "yes,yes,0,0,7,6,5,4,0",
        "no,13,9,0,0,0,0,8,0",
        "no,13,9,0,0,0,0,8,",
        ",no,13,9,0,0,0,0,8",
        "yes,0,0,7,6,5,4,0,yes,0,0,7,6,5,4,0",
        "yes,0,0,7,6,5,4,0yes,0,0,7,6,5,4,0",
    ];
    second_lines("too many", &lines)
}

fn other_lines() -> Vec<Night> {
    let lines = [
        "",
        " ",
        ",",
        ",,,,,,,",
        "yes;0;0;7;6;5;4;0",
        "yes 0 0 7 6 5 4 0",
        "yes, 0, 0, 7, 6, 5, 4, 0",
        "yes,0,0,7,6,5.4,0",
        "yes,0,0,7,6,5,4,0 ",
        "yes,0,0,7,6,5,4,0\r",
        "\ryes,0,0,7,6,5,4,0",
        "no,13,9,0,0,0,0,8\r",
        "\"yes\",0,0,7,6,5,4,0",
        // A line of a checker file, a reply to a heap, and figures.
        "T,nul,0,0,0,0",
        "0,0,2",
        "3,2,5,1,0,1",
        "2,2",
    ];
    second_lines("other", &lines)
}

/// Bytes that are no text, or that may end one.
fn answers_of_odd_bytes() -> Vec<Night> {
    let rows: [(&str, &[u8]); 6] = [
        ("NUL after it", b"yes\0,0,0,7,6,5,4,0\n"),
        ("NUL before it", b"\0yes,0,0,7,6,5,4,0\n"),
        ("NUL for its last byte", b"ye\0,0,0,7,6,5,4,0\n"),
        ("255 for its last byte", b"ye\xff,0,0,7,6,5,4,0\n"),
        ("255 before it", b"\xffno,13,9,0,0,0,0,8\n"),
        ("the upper bit set", b"\xeeo,13,9,0,0,0,0,8\n"),
    ];
    let nights = rows.iter().map(|(what, line)| {
        let name = format!("answer: {what}");
        night(name, second_of_three(line), "2,2")
    });
    nights.collect()
}

/// "each line ended by one LF", and nothing behind the last one.
fn ends_of_lines() -> Vec<Night> {
    let reply = YES.trim_end();
    let whole = [
        ("no LF", reply.to_string(), "2,1"),
        ("no LF behind the second", format!("{YES}{reply}"), "2,2"),
        ("a byte alone", String::from("y"), "2,1"),
        ("two LFs alone", String::from("\n\n"), "2,1"),
        ("an LF first", format!("\n{YES}"), "2,1"),
        ("an LF more", format!("{YES}\n"), "2,2"),
        ("CR for LF", format!("{reply}\r"), "2,1"),
        ("CR for LF between", format!("{reply}\r{YES}"), "2,1"),
        ("CR LF", format!("{reply}\r\n"), "2,1"),
        ("CR LF on the second", format!("{YES}{reply}\r\n"), "2,2"),
        ("LF CR", format!("{YES}\r"), "2,2"),
        ("NUL for LF", format!("{reply}\0"), "2,1"),
        ("NUL before LF", format!("{reply}\0\n"), "2,1"),
        ("NUL behind", format!("{YES}\0"), "2,2"),
        ("blank behind", format!("{YES} "), "2,2"),
        ("a byte order mark", format!("\u{feff}{YES}"), "2,1"),
        (
            "a reply on two lines",
            "yes,0,0,7,\n6,5,4,0\n".into(),
            "2,1",
        ),
        ("LF for a comma", "yes\n0,0,7,6,5,4,0\n".into(), "2,1"),
        ("the second has one byte", format!("{YES}n"), "2,2"),
    ];
    let nights = whole.into_iter().map(|(what, replies, figures)| {
        let name = format!("end: {what}");
        night(name, replies, figures)
    });
    let of_255 = night("end: 255 behind", [YES.as_bytes(), b"\xff"].concat(), "2,2");
    nights.chain([of_255]).collect()
}
