//! Section 2 and rulings 3: tokens by kind, place and length.

use second::examine::tokens;

fn lexed(text: &str, expected: &str) {
    assert_eq!(tokens(text.as_bytes()), expected, "for the text {text:?}");
}

#[test]
fn numbers() {
    lexed("1", "tokens i:0:1");
    lexed("-12", "tokens i:0:3");
    lexed("1.", "tokens f:0:2");
    lexed(".5", "tokens f:0:2");
    lexed("-.5", "tokens f:0:3");
    lexed("-1.", "tokens f:0:3");
    lexed("1.25", "tokens f:0:4");
    lexed(".", "tokens y:0:1");
    lexed("-.", "tokens y:0:1 y:1:1");
}

#[test]
fn exponents() {
    lexed("1.5e3", "tokens x:0:5");
    lexed("1.e5", "tokens x:0:4");
    lexed("1.d5", "tokens x:0:4");
    lexed("-.5E10", "tokens x:0:6");
    lexed("2.0D1", "tokens x:0:5");
    lexed("1e5", "tokens i:0:1 a:1:2");
    lexed("1.5e-3", "tokens f:0:3 a:3:1 i:4:2");
    lexed("1.5e", "tokens f:0:3 a:3:1");
    lexed("1.5e3x", "tokens x:0:5 a:5:1");
    lexed("1.5ee3", "tokens f:0:3 a:3:3");
}

#[test]
fn the_longest_match_wins() {
    lexed("- 5", "tokens y:0:1 i:2:1");
    lexed("3-2", "tokens i:0:1 i:1:2");
    lexed("3--2", "tokens i:0:1 y:1:1 i:2:2");
    lexed("--5", "tokens y:0:1 i:1:2");
    lexed("12abc", "tokens i:0:2 a:2:3");
    lexed("1.2.3", "tokens f:0:3 f:3:2");
    lexed("1..2", "tokens f:0:2 f:2:2");
    lexed("end plan.5", "tokens w:0:3 w:4:4 f:8:2");
    lexed("end plan.", "tokens w:0:3 w:4:4 y:8:1");
    lexed("plan1", "tokens a:0:5");
    lexed("planx plan_ _plan", "tokens a:0:5 a:6:5 a:12:5");
    lexed("include includes", "tokens w:0:7 w:8:8");
    lexed("mandatory mandatory_validation", "tokens w:0:9 w:10:20");
    lexed("Plan PLAN And", "tokens a:0:4 a:5:4 a:10:3");
    lexed("and AND or OR", "tokens w:0:3 w:4:3 w:8:2 w:11:2");
}

#[test]
fn symbols() {
    lexed(":: ; . , ( ) [ ] :", "tokens y:0:2 y:3:1 y:5:1 y:7:1 y:9:1 y:11:1 y:13:1 y:15:1 y:17:1");
    lexed("= # ++ < <= =<", "tokens y:0:1 y:2:1 y:4:2 y:7:1 y:9:2 y:12:2");
    lexed("> >= => != + -", "tokens y:0:1 y:2:2 y:5:2 y:8:2 y:11:1 y:13:1");
    lexed("* /", "tokens y:0:1 y:2:1");
    lexed("+++", "tokens y:0:2 y:2:1");
    lexed(":::", "tokens y:0:2 y:2:1");
    lexed("<>", "tokens y:0:1 y:1:1");
    lexed("=<=", "tokens y:0:2 y:2:1");
    lexed("<==>", "tokens y:0:2 y:2:2");
    lexed("==", "tokens y:0:1 y:1:1");
}

#[test]
fn no_rule_matches() {
    lexed("!", "refused 2 0");
    lexed("a !b", "refused 2 2");
    lexed("1 ! = 2", "refused 2 2");
    lexed("a\0", "refused 2 1");
    lexed("a \x0b", "refused 2 2");
    lexed("\x0c", "refused 2 0");
    lexed("a\x7f", "refused 2 1");
    for odd in ["$", "%", "&", "?", "@", "\\", "^", "`", "{", "|", "}", "~"] {
        lexed(&format!("x {odd} y"), "refused 2 2");
    }
}

#[test]
fn white_space() {
    lexed("", "tokens");
    lexed(" \t\r\n", "tokens");
    lexed("a\tb\rc\nd e", "tokens a:0:1 a:2:1 a:4:1 a:6:1 a:8:1");
}

#[test]
fn quotes() {
    lexed("''", "tokens q:0:2");
    lexed("\"\"", "tokens s:0:2");
    lexed("'a b' \"c\"", "tokens q:0:5 s:6:3");
    lexed("'plan'", "tokens q:0:6");
    lexed("'a\"b' \"c'd\"", "tokens q:0:5 s:6:5");
    lexed("'a\nb\0\x7f'", "tokens q:0:7");
    lexed("'it\\'s'", "tokens q:0:7");
    lexed("'a\\\\'b'", "tokens q:0:7");
    lexed("\"a\\\"b\"", "tokens s:0:6");
    lexed("'a''b'", "tokens q:0:3 q:3:3");
}

#[test]
fn an_unclosed_quote_is_refused_where_it_opens() {
    lexed("a 'b", "refused 2 2");
    lexed("a \"b", "refused 2 2");
    lexed("'", "refused 2 0");
    lexed("'\\'", "refused 2 0");
    lexed("'\\\\'", "refused 2 0");
    lexed("x \"y\" \"z\\\"", "refused 2 6");
}

#[test]
fn comments() {
    lexed("/****/", "tokens");
    lexed("/** a **/b", "tokens a:9:1");
    lexed("/**/", "tokens y:0:1 y:1:1 y:2:1 y:3:1");
    lexed("/***/", "tokens y:0:1 y:1:1 y:2:1 y:3:1 y:4:1");
    lexed("/*****/", "tokens");
    lexed("/** a ***/b", "tokens a:10:1");
    lexed("/** a **/ **/", "tokens y:10:1 y:11:1 y:12:1");
    lexed("/** ' \" ! \0 **/1", "tokens i:15:1");
    lexed("/** /** **/ a", "tokens a:12:1");
    lexed("/** a", "tokens y:0:1 y:1:1 y:2:1 a:4:1");
    lexed("/** a '", "refused 2 6");
    lexed("a/b", "tokens a:0:1 y:1:1 a:2:1");
}

#[test]
fn bytes_over_127() {
    assert_eq!(tokens(b"ab\x80"), "refused 1 2");
    assert_eq!(tokens(b"'\xff'"), "refused 1 1");
    assert_eq!(tokens(b"! \xff"), "refused 1 2");
}

#[test]
fn the_length_of_the_text() {
    let mut text = vec![b' '; 16_384];
    assert_eq!(tokens(&text), "tokens");
    text.push(b' ');
    assert_eq!(tokens(&text), "refused 1 16385");
    text[16_384] = 200;
    assert_eq!(tokens(&text), "refused 1 16384");
    text[3] = 128;
    assert_eq!(tokens(&text), "refused 1 3");
}
