//! The program `answer`: the sample of document 01, and each way to leave the frame.

use second::program::answer;

const SAMPLE: &str = "0100040202
020000000200
020001000200
020003000201
03010220
030102200021
0302012004032021
03010320
";

fn printed(input: &str) -> String {
    String::from_utf8(answer(input.as_bytes())).expect("digits and LF")
}

#[test]
fn sample() {
    let expected = "81000A0010000E\n8300040000000100040005\n83000200000005\n830001000A\n830000\n";
    assert_eq!(printed(SAMPLE), expected);
    assert_eq!(printed(SAMPLE.trim_end()), expected);
}

#[test]
fn empty_input() {
    assert_eq!(printed(""), "FF1200000001\n");
    assert_eq!(printed("\n"), "FF1200000001\n");
}

#[test]
fn tables_are_built_at_the_end_without_a_query() {
    assert_eq!(printed("0100000101"), "81000000000000\n");
    assert_eq!(printed("0100010101\n"), "81000100010001\n");
    assert_eq!(printed("0100010101\n02000000000000\n"), "FF1200000002\n");
}

#[test]
fn bad_frames() {
    let sizes = "0100020101\n";
    for (line, place) in [
        ("0100020101", 2),
        ("020000000100\r", 2),
        ("02000000010", 2),
        ("02000000010a", 2),
        ("04", 2),
        ("0", 2),
        ("03000", 2),
        ("030G", 2),
        ("\n03", 2),
        ("03 0", 2),
    ] {
        let input = format!("{sizes}{line}\n");
        assert_eq!(printed(&input), format!("FF12{place:08X}\n"), "{input}");
    }
    assert_eq!(printed("0100210101\n"), "FF1200000001\n");
    assert_eq!(printed("0300\n"), "FF1200000001\n");
}

#[test]
fn bad_frames_after_the_tables() {
    let start = "0100020101\n0300\n";
    let printed_so_far = "81000100020001\n83000200000003\n";
    for line in ["020000000100", "0100020101", "", "33"] {
        let input = format!("{start}{line}\n0300\n");
        assert_eq!(printed(&input), format!("{printed_so_far}FF1200000003\n"));
    }
    assert_eq!(
        printed(&format!("{start}03\n0300")),
        format!("{printed_so_far}FF0700000000\n83000200000003\n")
    );
}

#[test]
fn a_bare_query_builds_first() {
    assert_eq!(
        printed("0100010101\n03\n"),
        "81000100010001\nFF0700000000\n"
    );
}

#[test]
fn refusals_of_build_stop() {
    assert_eq!(printed("0100020001\n0300\n"), "FF0100000000\n");
    assert_eq!(printed("0100020901\n0300\n"), "FF0100000000\n");
    assert_eq!(printed("0100020100\n0300\n"), "FF0200000000\n");
    assert_eq!(printed("0100020105\n0300\n"), "FF0200000000\n");
    assert_eq!(
        printed("0100020101\n020000000100\n020000000200\n0300\n"),
        "FF0400000001\n"
    );
}

#[test]
fn entry_room() {
    let mut input = String::from("0100010804\n");
    for label in 0..8 {
        input.push_str(&format!("0200000000{label:02X}\n"));
    }
    assert_eq!(
        printed(&input),
        format!("FF06{:08X}\n", 1 + 16 + 256 + 4096 + 65536)
    );
}

#[test]
fn limits() {
    let edges = "020000000000\n".repeat(1024);
    let full = format!("0100200101\n{edges}");
    assert_eq!(printed(&full), "81000200200004\n");
    let more = format!("0100200101\n{edges}020000000000\n");
    assert_eq!(printed(&more), format!("FF12{:08X}\n", 1026));
    let tokens = "00".repeat(255);
    assert_eq!(
        printed(&format!("0100010101\n03{tokens}\n")),
        "81000100010001\nFF0700000000\n"
    );
    assert_eq!(
        printed(&format!("0100010101\n03{tokens}00\n")),
        "FF1200000002\n"
    );
    assert_eq!(
        printed(&format!("0100010101\n03{tokens}0\n")),
        "FF1200000002\n"
    );
}
