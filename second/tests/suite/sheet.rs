//! The small program: document 01's sheet, and ruling 10.5.

use crate::line;
use second::sheet::write_sheet;

/// All that the small program writes for some input.
fn whole(input: &[u8]) -> String {
    let mut out = Vec::new();
    write_sheet(input, &mut out).expect("writing to a vector succeeds");
    String::from_utf8(out).expect("the answers are characters")
}

#[test]
fn document_01_prints_these_four_lines() {
    let input = b"min([12, 3, 15])\nsum([12, 3, 15]) / count([12, 3, 15])\n3-2\ntrue and true\n";
    let expected = "line type value\n1 integer 3\n2 real 10.000\n3 refused 3\n4 refused 5\n";
    assert_eq!(whole(input), expected);
}

#[test]
fn lines_are_counted() {
    assert_eq!(whole(b""), "line type value\n");
    assert_eq!(whole(b"\n"), "line type value\n1 refused 3\n");
    assert_eq!(whole(b"1"), "line type value\n1 integer 1\n");
    assert_eq!(whole(b"1\n"), "line type value\n1 integer 1\n");
    assert_eq!(whole(b"1\r\n \n2"), "line type value\n1 integer 1\n2 refused 3\n3 integer 2\n");
    assert_eq!(whole(b"1\n\n"), "line type value\n1 integer 1\n2 refused 3\n");
}

#[test]
fn odd_lines_are_refused_like_others() {
    assert_eq!(whole(b"\xff\n\xc3\xa4\n"), "line type value\n1 refused 1\n2 refused 1\n");
    assert_eq!(whole(&[b'1'; 16_385]), "line type value\n1 refused 1\n");
    assert_eq!(whole(&[b'0'; 16_384]), "line type value\n1 integer 0\n");
    assert_eq!(whole(b"\0\n?\n'a\n"), "line type value\n1 refused 2\n2 refused 2\n3 refused 2\n");
}

#[test]
fn rows_of_the_sheet_that_need_no_item() {
    line("min([12, 3, 15])", "integer 3");
    line("min([])", "integer unknown");
    line("max([\"b\", \"B\"])", "text b");
    line("-1 / 3", "real -0.333");
    line("2000000 + 1", "integer unknown");
}

#[test]
fn literals_of_the_sheet() {
    line("2000000", "integer 2000000");
    line("2000001", "refused 6");
    line("0.125", "real 0.125");
    line("0.1250", "refused 6");
    line(
        "[1,2,3,4,5,6,7,8,9,10,11,12,13,14,15,16]",
        "setof_integer [1, 2, 3, 4, 5, 6, 7, 8, 9, 10, 11, 12, 13, 14, 15, 16]",
    );
    line("[1,2,3,4,5,6,7,8,9,10,11,12,13,14,15,16,17]", "refused 6");
}

#[test]
fn ruling_10_5() {
    line("if(1 = 1, 2, 3.5)", "real 2");
    line("sum(if(1 = 1, [], [1.5]))", "real 0");
    line("-0.0", "real 0.000");
    line("- 0.0", "real 0.000");
    line("0.0 * -1", "real 0.000");
    line("-0", "integer 0");
    line("\"\"", "text ");
    line("''", "text ");
    line("[\"a b\", c, 'd']", "setof_text [a b, c, d]");
    line("[]", "setof_anything []");
    line(" \t\r", "refused 3");
    line("'netsupport'(a, b)", "refused 5");
}

#[test]
fn every_atom_is_text() {
    line("a", "text a");
    line("unknown", "text unknown");
    line("true", "text true");
    line("'two words'", "text two words");
    line("'it\\'s'", "text it\\'s");
    line("'plan'", "text plan");
    line("plan", "refused 3");
    line("is_dormant(a)", "truth_value unknown");
}

#[test]
fn numbers_are_printed_by_their_kind() {
    line("[1, 2.5]", "setof_real [1, 2.500]");
    line("1.", "real 1.000");
    line(".5", "real 0.500");
    line("-.5", "real -0.500");
    line("-1.", "real -1.000");
    line("0007", "integer 7");
    line("-0.001", "real -0.001");
    line("2000000.000", "real 2000000.000");
    line("[1, 2000000 + 1]", "setof_integer [1, unknown]");
    line("1 = 1", "truth_value true");
    line("1 = 2", "truth_value false");
}

#[test]
fn comments_are_no_tokens() {
    line("1 /** one **/ + /****/ 2", "integer 3");
    line("/** nothing **/", "refused 3");
    line("1 /** never closed", "refused 3");
}
