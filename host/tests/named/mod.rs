//! Picks a case by its name.

pub fn file(name: &str) -> Vec<u8> {
    let named = cases::all().into_iter().find(|case| case.name == name);
    named.expect(name).file
}
