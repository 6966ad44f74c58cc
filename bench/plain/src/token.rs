//! Tokens: what the lexer finds, with its place in the text.

/// What a token is. Reserved strings that the grammar treats alike share a
/// kind, as `<=` and `=<` do; `and` and `AND` differ in postconditions.
#[derive(Clone, Copy, Debug, PartialEq, Eq)]
#[rustfmt::skip]
pub enum Kind {
    // Words.
    Abort, Action, And, AndCapital, Argument, ArgumentName, Attributes, Autonomous, Candidate, Caption,
    ChoiceMode, Completed, Component, Context, CycleRepeat, CycleUntil, Data, Decision, DefaultValue,
    Derivation, Description, Directives, End, Enquiry, FalseValue, Goal, Include, Ltwh, Mandatory,
    MandatoryValidation, Netsupport, NumberOfCycles, Oneof, Optional, Or, ParamValue, Parameters, Plan,
    Postcondition, Precondition, Priority, Procedure, Range, Recommendation, ResultOf, ScheduleConstraint,
    Source, SupportMode, Task, Terminal, Terminate, Trigger, TrueValue, Type, Unit, WaitCondition,
    /// `single` or `multiple`.
    Choice,
    /// `symbolic` or `numeric`.
    SupportType,
    /// `for`, `against`, `confirming` or `excluding`.
    Support,
    /// `seconds` to `weeks`.
    TimeUnit,
    // Symbols.
    DoubleColon, Colon, Semicolon, Point, Comma, OpenRound, CloseRound, OpenSquare, CloseSquare,
    Equal, NotEqual, Less, LessOrEqual, Greater, GreaterOrEqual,
    Hash, DoublePlus, Plus, Minus, Star, Slash,
    // The rest.
    Atom, QuotedAtom, Integer, Float,
    /// Left out of the first edition.
    ExponentFloat,
    DoubleQuotedString,
    /// Behind the last token.
    EndOfText,
}

/// One token.
#[derive(Clone, Copy, Debug)]
pub struct Token {
    pub kind: Kind,
    /// The place of its first byte.
    pub place: u32,
    /// Its length in bytes, quotes included.
    pub length: u32,
}

impl Token {
    pub fn place(&self) -> usize {
        self.place as usize
    }

    pub fn is_atom(&self) -> bool {
        matches!(self.kind, Kind::Atom | Kind::QuotedAtom)
    }

    /// The bytes as written.
    pub fn written<'text>(&self, text: &'text [u8]) -> &'text [u8] {
        &text[self.place()..self.place() + self.length as usize]
    }

    /// The bytes between the quotes, or all of them if there are none.
    pub fn inner<'text>(&self, text: &'text [u8]) -> &'text [u8] {
        let written = self.written(text);
        match self.kind {
            Kind::QuotedAtom | Kind::DoubleQuotedString => &written[1..written.len() - 1],
            _ => written,
        }
    }
}
