//! Texts in the making: their tokens one by one, and how they are put together.

use super::random::Random;

/// The tokens of a text, each as it will be written.
pub type Words = Vec<String>;

/// The words of a text that is written with blanks between them.
pub fn words(text: &str) -> Words {
    text.split(' ').filter(|word| !word.is_empty()).map(str::to_string).collect()
}

/// Tokens that may touch any other without becoming one with it.
fn stands_alone(word: &str) -> bool {
    matches!(word, "(" | ")" | "[" | "]" | "," | ";" | "::")
}

/// Joins the words so that they stay the tokens they are: mostly with a blank
/// between them, now and then with none, with more, or with a comment.
pub fn joined(words: &[String], blanks: &[&str], random: &mut Random) -> Vec<u8> {
    let mut text = Vec::new();
    let tight = random.chance(30);
    for (index, word) in words.iter().enumerate() {
        let before = index.checked_sub(1).map_or("", |before| &words[before]);
        let may_touch = index == 0 || stands_alone(before) || stands_alone(word);
        if !may_touch || !tight && random.chance(60) {
            let odd = random.chance(6);
            text.extend_from_slice(if odd { random.pick(blanks) } else { " " }.as_bytes());
        }
        text.extend_from_slice(word.as_bytes());
    }
    text
}

/// Blanks that fit on one line.
pub const ON_A_LINE: [&str; 6] = ["  ", "\t", "\r", " /** comment **/ ", "/****/", "/** * / ' \" ! **/"];

/// Blanks of any kind.
pub const ANYWHERE: [&str; 6] = ["\n", "\n\n  ", "\t", "\r\n", " /** a\ncomment **/ ", "/*****/"];
