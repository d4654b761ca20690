//! The two readers of lines: results worked out by hand, and the same results
//! on files of every kind.

#[cfg(not(reading_alone))]
compile_error!("libreading_alone.a is missing: run `./libraries reading_alone` first");

use host::generator::{batch, full_tables};
use host::proved_reader;
use host::tight_reader::{self, BAD_SHAPE};

const SEED: u64 = 20_040_405;
const BATCHES: u64 = 300;

/// What both readers give.
fn read(file: &[u8]) -> u64 {
    let value = proved_reader::read_lines(file);
    let text = String::from_utf8_lossy(file);
    assert_eq!(tight_reader::read_lines(file), value, "{text}");
    value
}

#[test]
fn no_line_gives_nothing() {
    assert_eq!(read(b""), 0);
}

/// "rfv" is 0x76_66_72, "in" is 0x6e_69; 12 is 0x000c, 34 is 0x0022, 567 is
/// 0x0237, 8901 is 0x22c5, 98765 is 0x1_81cd.
#[test]
fn words_and_numbers_are_mixed() {
    assert_eq!(read(b"T,rfv,1,0,0,0\n"), 0x76_66_73);
    assert_eq!(read(b"A,in,12,34,567,8901\n"), 0x4e_b5);
    assert_eq!(read(b"T,rfv,1,0,0,0\nA,in,12,34,567,8901\n"), 0x76_28_c6);
    assert_eq!(read(b"T,rfv,98765,0,0,0\n"), 0x77_e7_bf);
    assert_eq!(read(b"S,in,0,0,0,0\nS,in,0,0,0,0\n"), 0);
}

/// Which letters a file knows is its own; a reader takes every capital.
#[test]
fn any_capital_is_read() {
    for letter in ['A', 'D', 'Q', 'Z'] {
        let file = format!("{letter},rfv,1,0,0,0\n");
        assert_eq!(read(file.as_bytes()), 0x76_66_73, "{file}");
    }
}

#[test]
fn each_number_counts() {
    for numbers in ["9,0,0,0", "0,9,0,0", "0,0,9,0", "0,0,0,9"] {
        let file = format!("S,aa,{numbers}\n");
        assert_eq!(read(file.as_bytes()), 0x61_61 ^ 9, "{file}");
    }
}

#[test]
fn the_longest_line_is_read() {
    assert_eq!(read(b"S,zzz,99999,99999,99999,99999\n"), 0x7a_7a_7a);
    assert_eq!(
        read(b"S,zzz,99999,99999,99999,9999\n"),
        0x7a_7a_7a ^ 99999 ^ 9999
    );
}

#[test]
fn a_bad_shape_is_found() {
    for line in [
        "",
        "T",
        "T,rfv,1,0,0",
        "T,rfv,1,0,0,0,",
        "T,rfv,1,0,0,0,0",
        "T,rfv,1,0,0,",
        "T,rfv,,0,0,0",
        "T,rfv,01,0,0,0",
        "T,rfv,00,0,0,0",
        "T,rfv,00000,0,0,0",
        "T,rfv,09999,0,0,0",
        "T,rfv,100000,0,0,0",
        "T,rfv,1,100000,0,0",
        "T,rfv,1,0,0,100000",
        "T,rfv,+1,0,0,0",
        "T,rfv,1,0,0,0 ",
        "T,rfv,1,0,0,0\r",
        "T,r,1,0,0,0",
        "T,rfvs,1,0,0,0",
        "T,rFv,1,0,0,0",
        "T,r{,1,0,0,0",
        "t,rfv,1,0,0,0",
        "@,rfv,1,0,0,0",
        "[,rfv,1,0,0,0",
        "TT,rfv,1,0,0,0",
        "T.rfv,1,0,0,0",
    ] {
        let good = "A,in,1,2,0,0\n";
        for file in [format!("{line}\n"), format!("{good}{line}\n{good}")] {
            assert_eq!(read(file.as_bytes()), BAD_SHAPE, "{file}");
        }
    }
    assert_eq!(read(b"T,rfv,1,0,0,0"), BAD_SHAPE);
    assert_eq!(read(b"T,rfv,1,0,0,0\nT"), BAD_SHAPE);
}

#[test]
fn both_agree_on_full_tables() {
    for table in full_tables::all() {
        for sample in [table.accepted, table.refused] {
            assert_ne!(read(&sample.bytes), BAD_SHAPE, "{}", sample.kind);
        }
    }
}

#[test]
fn both_agree_on_generated_files() {
    let samples = (0..BATCHES).flat_map(|number| batch(SEED, number));
    let (bad, good): (Vec<u64>, Vec<u64>) = samples
        .map(|sample| read(&sample.bytes))
        .partition(|value| *value == BAD_SHAPE);
    assert!(bad.len() >= 100, "{} badly shaped files", bad.len());
    assert!(good.len() >= 1000, "{} well-shaped files", good.len());
}

/// Lines with words and numbers of every length, and the longest line last.
const SMALL: &[u8] = b"T,rfv,1,0,0,0\nA,in,12,345,6789,10234\nS,cls,1,20,300,4000\n\
    S,ref,98765,43210,12345,67890\n";

#[test]
fn both_agree_whatever_the_byte() {
    for position in 0..=SMALL.len() {
        let (before, after) = SMALL.split_at(position);
        let behind = after.get(1..).unwrap_or(&[]);
        for byte in 0..=u8::MAX {
            read(&[before, &[byte], after].concat());
            read(&[before, &[byte], behind].concat());
        }
        read(&[before, behind].concat());
        read(before);
        read(after);
    }
}
