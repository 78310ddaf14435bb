//! The worked example of docs/RULES.md, `listing-example`.

use twin::limits::DAYLIST;
use twin::listing::listing;

const STOP: &str = "02 00 80 D2 93 AD 03 80 A4 A7 DA 06 F4 03 00 00 00 01 01";

const PRINTED: &str = "\
rec ans link n
1 0 - 0
2 15 - 0
3 7 - 0
4 0 2 0
5 4 - 0
6 0 0 54
";

fn bytes_of(hex: &str) -> Vec<u8> {
    hex.split_whitespace().map(|byte| u8::from_str_radix(byte, 16).unwrap()).collect()
}

fn example() -> Vec<u8> {
    let thirteen_zeros = "00 ".repeat(13);
    let rows = [
        "01 81 80 80 80 80 40 41 01 01 01 01".to_string(),
        "03 01".to_string(),
        "03 02".to_string(),
        STOP.to_string(),
        STOP.to_string(),
        "06 04 82 80 80 80 80 40 00 28 60 00 00 00 00 00 3B 40".to_string(),
        format!("FE 80 {thirteen_zeros} 01 FF 02 {thirteen_zeros} 01"),
    ];
    bytes_of(&rows.join(" "))
}

#[test]
fn it_prints_what_the_rules_print() {
    assert_eq!(listing(DAYLIST, &example()), PRINTED);
}

#[test]
fn cut_anywhere_it_prints_the_whole_records_and_one_broken() {
    let whole = example();
    let ends = [0, 12, 14, 16, 35, 54, whole.len()];
    for length in 0..whole.len() {
        let before = ends.iter().filter(|&&end| end <= length).max().unwrap();
        let count = ends.iter().filter(|&&end| end <= length).count() - 1;
        let mut expected: String =
            PRINTED.lines().take(count + 1).map(|line| format!("{line}\n")).collect();
        if *before < length {
            expected += &format!("{} 14 - {before}\n", count + 1);
        }
        assert_eq!(listing(DAYLIST, &whole[..length]), expected, "cut to {length}");
    }
}
