//! What the grammar has and the first edition leaves out: it is read, and its
//! word noted, so that 3 can be told before 10.

use super::{Parser, Seen};
use crate::refusal::Refusal;
use crate::terms::Class;
use crate::token::Kind;

impl Parser<'_> {
    pub(super) fn directives(&mut self) -> Result<(), Refusal> {
        self.leave_out();
        self.word(Kind::Directives)?;
        while self.kind() != Kind::End {
            self.atom()?;
            self.expect(Kind::Semicolon)?;
        }
        self.at += 1;
        self.expect(Kind::Directives)?;
        self.expect(Kind::Point)
    }

    /// An attribute of a task that is left out; or no attribute at all.
    pub(super) fn left_out_task_attribute(&mut self, class: Class) -> Result<(), Refusal> {
        let is_one = match self.kind() {
            Kind::Goal | Kind::Parameters => true,
            Kind::Abort => class == Class::Plan,
            Kind::Procedure | Kind::Context => class == Class::Action,
            Kind::Candidate | Kind::ChoiceMode | Kind::SupportMode => class == Class::Decision,
            _ => false,
        };
        if !is_one {
            return self.stop();
        }
        match self.kind() {
            Kind::Parameters => self.parameters(),
            Kind::Candidate => self.candidate(),
            Kind::ChoiceMode => self.left_out_word(|parser| parser.expect(Kind::Choice)),
            Kind::SupportMode => self.left_out_word(|parser| parser.expect(Kind::SupportType)),
            Kind::Context => self.left_out_word(|parser| parser.atom().map(|_| ())),
            _ => self.left_out_expression(),
        }
    }

    /// A word, what stands behind its double colon, and a semicolon.
    fn left_out_word(&mut self, body: fn(&mut Self) -> Result<(), Refusal>) -> Result<(), Refusal> {
        self.leave_out();
        self.word(self.kind())?;
        body(self)?;
        self.expect(Kind::Semicolon)
    }

    fn left_out_expression(&mut self) -> Result<(), Refusal> {
        self.left_out_word(|parser| parser.outermost().map(|_| ()))
    }

    fn parameters(&mut self) -> Result<(), Refusal> {
        self.left_out_word(|parser| loop {
            parser.atom()?;
            if parser.passes(Kind::Attributes) {
                if parser.kind() == Kind::Type {
                    parser.data_type()?;
                }
                parser.attributes_end()?;
            }
            if !parser.passes(Kind::Comma) {
                return Ok(());
            }
        })
    }

    /// Captions and descriptions up to `end attributes`.
    fn attributes_end(&mut self) -> Result<(), Refusal> {
        self.texts(&mut Seen::default())?;
        self.expect(Kind::End)?;
        self.expect(Kind::Attributes)
    }

    fn candidate(&mut self) -> Result<(), Refusal> {
        self.left_out_word(|parser| parser.atom().map(|_| ()))?;
        self.texts(&mut Seen::default())?;
        loop {
            match self.kind() {
                Kind::Argument => self.argument()?,
                Kind::Recommendation => self.left_out_expression()?,
                Kind::Priority => self.left_out_word(|parser| parser.expect(Kind::Integer))?,
                _ => return Ok(()),
            }
        }
    }

    fn argument(&mut self) -> Result<(), Refusal> {
        self.left_out_word(|parser| {
            parser.support()?;
            parser.expect(Kind::Comma)?;
            parser.outermost()?;
            if !parser.passes(Kind::Attributes) {
                return Ok(());
            }
            if parser.passes(Kind::ArgumentName) {
                parser.expect(Kind::DoubleColon)?;
                parser.atom()?;
                parser.expect(Kind::Semicolon)?;
            }
            parser.attributes_end()
        })
    }

    /// A word, or a number with any number of minus signs before it.
    fn support(&mut self) -> Result<(), Refusal> {
        if self.passes(Kind::Support) {
            return Ok(());
        }
        while self.passes(Kind::Minus) {}
        match self.kind() {
            Kind::Integer | Kind::Float | Kind::ExponentFloat => self.at += 1,
            _ => return self.stop(),
        }
        Ok(())
    }

    /// Whether an attribute of a component that is left out was read.
    pub(super) fn left_out_component_attribute(&mut self) -> Result<bool, Refusal> {
        match self.kind() {
            Kind::Autonomous | Kind::Optional => {
                self.left_out_word(|parser| parser.yes_or_no().map(|_| ()))?;
            }
            Kind::ParamValue => self.left_out_word(|parser| {
                parser.atom()?;
                parser.expect(Kind::Equal)?;
                parser.outermost().map(|_| ())
            })?,
            Kind::Ltwh => self.left_out_word(Self::four_integers)?,
            Kind::NumberOfCycles | Kind::CycleUntil => self.left_out_expression()?,
            Kind::CycleRepeat => self.left_out_word(|parser| {
                parser.outermost()?;
                parser.expect(Kind::TimeUnit)
            })?,
            _ => return Ok(false),
        }
        Ok(true)
    }

    fn four_integers(&mut self) -> Result<(), Refusal> {
        self.expect(Kind::Integer)?;
        for _ in 0..3 {
            self.expect(Kind::Comma)?;
            self.expect(Kind::Integer)?;
        }
        Ok(())
    }

    /// An attribute of a data item, all of which are left out.
    pub(super) fn left_out_data_attribute(&mut self) -> Result<(), Refusal> {
        match self.kind() {
            Kind::Range => self.left_out_word(|parser| loop {
                parser.outermost()?;
                if !parser.passes(Kind::Comma) {
                    return Ok(());
                }
            }),
            Kind::DefaultValue | Kind::MandatoryValidation | Kind::Derivation => self.left_out_expression(),
            Kind::TrueValue | Kind::FalseValue | Kind::Unit => {
                self.left_out_word(|parser| match parser.passes(Kind::DoubleQuotedString) {
                    true => Ok(()),
                    false => parser.atom().map(|_| ()),
                })
            }
            _ => self.stop(),
        }
    }
}
