//! Reads the tables of a page, and makes the edits that they name.

/// The rows of the page's table with these columns; the backquotes are left
/// out.
pub fn rows<const N: usize>(page: &str, columns: [&str; N]) -> Vec<[String; N]> {
    let heading = format!("| {} |\n|{}\n", columns.join(" | "), "---|".repeat(N));
    let (_, table) = page.split_once(&heading).expect(&heading);
    let lines = table.lines().take_while(|line| line.starts_with('|'));
    let rows: Vec<_> = lines.map(cells).collect();
    assert!(!rows.is_empty(), "{heading}");
    rows
}

fn cells<const N: usize>(row: &str) -> [String; N] {
    let inner = row
        .strip_prefix("| ")
        .and_then(|row| row.strip_suffix(" |"));
    let cells = inner.expect(row).split(" | ");
    let cells: Vec<String> = cells.map(|cell| cell.replace('`', "")).collect();
    cells.try_into().expect(row)
}

/// What `sed` makes of the file, for the three kinds of edit that the pages
/// use.
pub fn edited(file: &str, edit: &str) -> String {
    let digits = edit.find(|c: char| !c.is_ascii_digit()).expect(edit);
    let (line, command) = edit.split_at(digits);
    let at = line.parse::<usize>().expect(edit) - 1;
    let mut lines: Vec<&str> = file.lines().collect();
    match command {
        "d" => {
            lines.remove(at);
        }
        "p" => lines.insert(at, lines[at]),
        _ => {
            let new = command.strip_prefix("s/.*/");
            lines[at] = new.and_then(|new| new.strip_suffix('/')).expect(edit);
        }
    }
    lines.iter().map(|line| format!("{line}\n")).collect()
}
