//! Files as a reader takes them that is wrong about long numbers.

/// Keeps only some part of a name of five digits, on T lines or D lines. No
/// name becomes 0, so that only those matter that become another.
pub fn with_names(file: &[u8], part: fn(usize) -> usize) -> Vec<u8> {
    with_numbers(file, |line, field, number| {
        let is_long_name = is_name(line, field) && has_five_digits(number);
        is_long_name.then(|| part(number)).filter(|part| *part != 0)
    })
}

/// Keeps 16 bits of all numbers that are no names.
pub fn numbers_of_16_bits(file: &[u8]) -> Vec<u8> {
    with_numbers(file, |line, field, number| {
        let is_taken = !is_name(line, field) && number < 100_000;
        is_taken.then_some(number % (1 << 16))
    })
}

/// Whether a field of a T or D line, counted from 0, is a name.
fn is_name(line: &[u8], field: usize) -> bool {
    let variables: [&[u8]; 5] = [b"rfv", b"rgv", b"arv", b"fnv", b"clv"];
    let has_name = |word| variables.contains(&word);
    field == 2 && line.get(2..5).is_some_and(has_name)
}

fn has_five_digits(number: usize) -> bool {
    (10_000..100_000).contains(&number)
}

/// Takes a number of six digits, of which it drops the last.
pub fn six_digits_taken(file: &[u8]) -> Vec<u8> {
    with_numbers(file, |_, _, number| {
        let has_six = (100_000..1_000_000).contains(&number);
        has_six.then_some(number / 10)
    })
}

/// The file with other numbers: `change` is given a line, a field, counted from
/// 0, and its number.
fn with_numbers(file: &[u8], change: impl Fn(&[u8], usize, usize) -> Option<usize>) -> Vec<u8> {
    let mut changed = Vec::new();
    for line in lines(file) {
        let (text, end) = line.split_at(line.trim_ascii_end().len());
        let mut fields = Vec::new();
        for (index, field) in text.split(|byte| *byte == b',').enumerate() {
            let other = number(field).and_then(|number| change(line, index, number));
            let new = other.map(|other| other.to_string().into_bytes());
            fields.push(new.unwrap_or(field.to_vec()));
        }
        changed.extend([&fields.join(&b','), end].concat());
    }
    changed
}

/// Takes no number of five digits: of a line with one the letter is left.
pub fn five_digits_refused(file: &[u8]) -> Vec<u8> {
    let mut taken = Vec::new();
    for line in lines(file) {
        let mut fields = line.trim_ascii_end().split(|byte| *byte == b',');
        if fields.any(|field| number(field).is_some_and(has_five_digits)) {
            taken.extend([&line[..2], b"\n"].concat());
        } else {
            taken.extend(line);
        }
    }
    taken
}

fn lines(file: &[u8]) -> impl Iterator<Item = &[u8]> {
    file.split_inclusive(|byte| *byte == b'\n')
}

/// The number in a field that has no leading zero, whatever its length.
fn number(field: &[u8]) -> Option<usize> {
    let text = std::str::from_utf8(field).ok()?;
    let number: usize = text.parse().ok()?;
    (number.to_string() == text).then_some(number)
}
