use super::*;

/// The worked example of document 01, as printed there.
const EXAMPLE: &str =
    "70000006 0 00070100 0 00020004 0 0 0 70020002 0 20 1000 71000004 0 0 0 0 0 05000000";

/// Dwords in hex as little-endian bytes.
fn bytes(hex: &str) -> Vec<u8> {
    let dwords = hex.split_whitespace();
    let dwords = dwords.map(|dword| u32::from_str_radix(dword, 16).expect("a dword in hex"));
    dwords.flat_map(u32::to_le_bytes).collect()
}

fn printed_by(chip: u32, input: &[u8]) -> String {
    String::from_utf8(listing(chip, input)).expect("plain text")
}

/// By both programs, which must agree.
fn printed(input: &[u8]) -> String {
    let [by_6, by_7] = [6, 7].map(|chip| printed_by(chip, input));
    assert_eq!(by_6, by_7);
    by_7
}

fn refused(number: u32, place: u32) -> String {
    format!("MPL 1\nrefused {number} at {place}\n")
}

#[test]
fn worked_example() {
    let lines = "MPL 1\n0 VFE 8\n8 IDL 4\n12 OBJ 6\n18 END 1\naccepted 4 19\n";
    assert_eq!(printed(&bytes(EXAMPLE)), lines);
    // What stands after END is not read, but it counts as bytes.
    let mut longer = bytes(EXAMPLE);
    longer.extend([0xff; 8]);
    assert_eq!(printed(&longer), lines);
    longer.push(0xff);
    assert_eq!(printed(&longer), refused(17, 21));
}

#[test]
fn every_name() {
    let batch = "0 2000000 70000006 0 0 0 1 0 0 0 70010002 0 20 0 70020002 0 40 0 \
                 71000006 1 0 0 0 0 5000000 deadbeef 70040000 0 5000000";
    let lines = "MPL 1\n0 NOP 1\n1 FLU 1\n2 VFE 8\n10 CUR 4\n14 IDL 4\n18 OBJ 8\n\
                 26 SFL 2\n28 END 1\naccepted 8 29\n";
    assert_eq!(printed(&bytes(batch)), lines);
    let batch = bytes("70000006 0 0 0 1 0 0 0 70030000 30208 5000000");
    let lines = "MPL 1\n0 VFE 8\n8 GWS 2\n10 END 1\naccepted 3 11\n";
    assert_eq!(printed_by(6, &batch), lines);
    assert_eq!(printed_by(7, &batch), refused(3, 8));
}

#[test]
fn every_refusal() {
    for (batch, number, place) in [
        ("", 2, 0),
        ("0 0 0", 2, 3),
        ("0 1 5000000", 3, 1),
        ("0 70040001 0 0 5000000", 4, 1),
        ("0 0 70040000", 5, 2),
        ("70040000 80000000 5000000", 6, 1),
        ("70010002 0 1 0 5000000", 7, 2),
        ("70010002 0 0 1 5000000", 7, 3),
        ("0 70010002 0 0 0 5000000", 8, 1),
    ] {
        assert_eq!(printed(&bytes(batch)), refused(number, place), "{batch}");
    }
    let batch = bytes("70040000 80 5000000");
    assert_eq!(printed_by(7, &batch), refused(6, 1));
    assert_eq!(printed_by(6, &batch).lines().count(), 4);
}

#[test]
fn the_capacity_is_2048_rows() {
    let vfe = |rows: &str| bytes(&format!("70000006 0 100 0 {rows} 0 0 0 5000000"));
    assert_eq!(printed(&vfe("7ff0001")).lines().count(), 4);
    assert_eq!(printed(&vfe("800")).lines().count(), 4);
    assert_eq!(printed(&vfe("7ff0002")), refused(9, 0));
    assert_eq!(printed(&vfe("801")), refused(9, 0));
}

#[test]
fn the_limit_precedes_17() {
    let batch = |length: usize| {
        let mut batch = vec![0; length];
        batch[MOST - 1] = 5;
        batch
    };
    let text = printed(&batch(MOST));
    assert_eq!(text.lines().count(), 1026);
    assert!(text.ends_with("\n1022 NOP 1\n1023 END 1\naccepted 1024 1024\n"));
    for length in [MOST + 1, MOST + 4, 70_000] {
        assert_eq!(printed(&batch(length)), refused(1, 0));
    }
    // Without END; odd bytes below the limit.
    assert_eq!(printed(&[0; MOST]), refused(2, 1024));
    assert_eq!(printed(&[0; MOST - 1]), refused(17, 1023));
    assert_eq!(printed(&[0]), refused(17, 0));
}
