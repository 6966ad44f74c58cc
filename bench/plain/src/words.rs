//! The 72 reserved words of section 3.2.

use crate::token::Kind;

/// The words in the order of their bytes, so that words with the same first
/// letter stand together.
#[rustfmt::skip]
const WORDS: [(&[u8], Kind); 72] = [
    (b"AND", Kind::AndCapital), (b"Netsupport", Kind::Netsupport), (b"OR", Kind::Or), (b"abort", Kind::Abort),
    (b"action", Kind::Action), (b"against", Kind::Support), (b"and", Kind::And),
    (b"argument", Kind::Argument), (b"argument_name", Kind::ArgumentName), (b"attributes", Kind::Attributes),
    (b"autonomous", Kind::Autonomous), (b"candidate", Kind::Candidate), (b"caption", Kind::Caption),
    (b"choice_mode", Kind::ChoiceMode), (b"completed", Kind::Completed), (b"component", Kind::Component),
    (b"confirming", Kind::Support), (b"context", Kind::Context), (b"cycle_repeat", Kind::CycleRepeat),
    (b"cycle_until", Kind::CycleUntil), (b"data", Kind::Data), (b"days", Kind::TimeUnit),
    (b"decision", Kind::Decision), (b"default_value", Kind::DefaultValue), (b"derivation", Kind::Derivation),
    (b"description", Kind::Description), (b"directives", Kind::Directives), (b"end", Kind::End),
    (b"enquiry", Kind::Enquiry), (b"excluding", Kind::Support), (b"false_value", Kind::FalseValue),
    (b"for", Kind::Support), (b"goal", Kind::Goal), (b"hours", Kind::TimeUnit), (b"include", Kind::Include),
    (b"includes", Kind::Include), (b"ltwh", Kind::Ltwh), (b"mandatory", Kind::Mandatory),
    (b"mandatory_validation", Kind::MandatoryValidation), (b"minutes", Kind::TimeUnit),
    (b"multiple", Kind::Choice), (b"netsupport", Kind::Netsupport),
    (b"number_of_cycles", Kind::NumberOfCycles), (b"numeric", Kind::SupportType), (b"oneof", Kind::Oneof),
    (b"optional", Kind::Optional), (b"or", Kind::Or), (b"param_value", Kind::ParamValue),
    (b"parameters", Kind::Parameters), (b"plan", Kind::Plan), (b"postcondition", Kind::Postcondition),
    (b"precondition", Kind::Precondition), (b"priority", Kind::Priority), (b"procedure", Kind::Procedure),
    (b"range", Kind::Range), (b"recommendation", Kind::Recommendation), (b"result_of", Kind::ResultOf),
    (b"schedule_constraint", Kind::ScheduleConstraint), (b"seconds", Kind::TimeUnit),
    (b"single", Kind::Choice), (b"source", Kind::Source), (b"support_mode", Kind::SupportMode),
    (b"symbolic", Kind::SupportType), (b"task", Kind::Task), (b"terminal", Kind::Terminal),
    (b"terminate", Kind::Terminate), (b"trigger", Kind::Trigger), (b"true_value", Kind::TrueValue),
    (b"type", Kind::Type), (b"unit", Kind::Unit), (b"wait_condition", Kind::WaitCondition),
    (b"weeks", Kind::TimeUnit),
];

/// For each first byte up to 127, where its words begin; they end where those
/// of the next byte begin.
const BEGINNINGS: [u8; 129] = beginnings();

const fn beginnings() -> [u8; 129] {
    let mut beginnings = [0; 129];
    let mut byte = 0;
    let mut word = 0;
    while byte < 129 {
        while word < WORDS.len() && (WORDS[word].0[0] as usize) < byte {
            word += 1;
        }
        beginnings[byte] = word as u8;
        byte += 1;
    }
    beginnings
}

/// The kind of a reserved word, or that of a bare atom.
pub fn kind_of(word: &[u8]) -> Kind {
    let first = usize::from(word[0]);
    let candidates = usize::from(BEGINNINGS[first])..usize::from(BEGINNINGS[first + 1]);
    let found = WORDS[candidates].iter().find(|entry| entry.0 == word);
    found.map_or(Kind::Atom, |entry| entry.1)
}

#[cfg(test)]
mod tests {
    use super::*;

    #[test]
    fn words_are_in_the_order_of_their_bytes() {
        assert!(WORDS.windows(2).all(|pair| pair[0].0 < pair[1].0));
        assert!(WORDS.iter().all(|(word, kind)| kind_of(word) == *kind));
    }
}
