//! Tasks, data items and their attributes.

use super::{Parser, Seen};
use crate::refusal::Refusal;
use crate::syntax::{Assignment, Component, DataItem, Name, Outermost, Source, Task, Written};
use crate::terms::{Class, DeclaredType};
use crate::token::Kind;

impl<'text> Parser<'text> {
    /// The whole guideline: perhaps directives, the root plan, and the rest.
    pub(super) fn process(&mut self) -> Result<Written<'text>, Refusal> {
        let mut written = Written::default();
        if self.kind() == Kind::Directives {
            self.directives()?;
        }
        let root = self.task(Class::Plan)?;
        written.tasks.push(root);
        while self.kind() != Kind::EndOfText {
            if self.kind() == Kind::Data {
                written.data_items.push(self.data_item()?);
                continue;
            }
            let class = match self.kind() {
                Kind::Plan => Class::Plan,
                Kind::Action => Class::Action,
                Kind::Enquiry => Class::Enquiry,
                Kind::Decision => Class::Decision,
                Kind::Task => Class::GenericTask,
                _ => return self.stop(),
            };
            written.tasks.push(self.task(class)?);
        }
        Ok(written)
    }

    /// A task; its class's word stands at both ends.
    fn task(&mut self, class: Class) -> Result<Task<'text>, Refusal> {
        let word = match class {
            Class::Plan => Kind::Plan,
            Class::Action => Kind::Action,
            Class::Enquiry => Kind::Enquiry,
            Class::Decision => Kind::Decision,
            Class::GenericTask => Kind::Task,
        };
        if matches!(class, Class::Decision | Class::GenericTask) {
            self.leave_out();
        }
        self.word(word)?;
        let mut task = new_task(class, self.atom()?);
        self.expect(Kind::Semicolon)?;
        let mut seen = Seen::default();
        task.texts = self.texts(&mut seen)?;
        while self.kind() != Kind::End {
            self.task_attribute(&mut task, &mut seen)?;
        }
        self.definition_end(word)?;
        Ok(task)
    }

    fn definition_end(&mut self, word: Kind) -> Result<(), Refusal> {
        self.expect(Kind::End)?;
        self.expect(word)?;
        self.expect(Kind::Point)
    }

    /// One attribute that this class of task may have.
    fn task_attribute(&mut self, task: &mut Task<'text>, seen: &mut Seen) -> Result<(), Refusal> {
        match (self.kind(), task.class) {
            (Kind::Component, Class::Plan) => task.components.push(self.component()?),
            (Kind::Source, Class::Enquiry | Class::Decision) => task.sources.push(self.source()?),
            (Kind::Precondition, _) => task.precondition = Some(self.condition(seen)?),
            (Kind::WaitCondition, _) => task.wait_condition = Some(self.condition(seen)?),
            (Kind::Terminate, Class::Plan) => task.terminate = Some(self.condition(seen)?),
            (Kind::Postcondition, _) => task.postcondition = Some(self.postcondition(seen)?),
            (Kind::Trigger, _) => {
                self.note_word(seen);
                self.word(Kind::Trigger)?;
                task.trigger = Some(self.atom()?);
                self.expect(Kind::Semicolon)?;
            }
            _ => self.left_out_task_attribute(task.class)?,
        }
        Ok(())
    }

    /// A word, an expression and a semicolon.
    fn condition(&mut self, seen: &mut Seen) -> Result<Outermost<'text>, Refusal> {
        self.note_word(seen);
        self.word(self.kind())?;
        let condition = self.outermost()?;
        self.expect(Kind::Semicolon)?;
        Ok(condition)
    }

    /// Captions and descriptions, which stand first.
    pub(super) fn texts(&mut self, seen: &mut Seen) -> Result<Vec<Outermost<'text>>, Refusal> {
        let mut texts = Vec::new();
        while matches!(self.kind(), Kind::Caption | Kind::Description) {
            texts.push(self.condition(seen)?);
        }
        Ok(texts)
    }

    fn postcondition(&mut self, seen: &mut Seen) -> Result<Vec<Assignment<'text>>, Refusal> {
        self.note_word(seen);
        self.word(Kind::Postcondition)?;
        let mut assignments = Vec::new();
        self.assertion(&mut assignments)?;
        self.expect(Kind::Semicolon)?;
        self.notes.assignments += assignments.len();
        Ok(assignments)
    }

    /// Assignments joined by `and`, each perhaps an assertion in brackets; the
    /// limit on open brackets bounds the recursion.
    fn assertion(&mut self, assignments: &mut Vec<Assignment<'text>>) -> Result<(), Refusal> {
        loop {
            if self.passes(Kind::OpenRound) {
                self.assertion(assignments)?;
                self.expect(Kind::CloseRound)?;
            } else {
                let target = self.atom()?;
                self.expect(Kind::Equal)?;
                assignments.push(Assignment { target, expression: self.assigned()? });
            }
            if !self.passes(Kind::And) {
                return Ok(());
            }
        }
    }

    fn component(&mut self) -> Result<Component<'text>, Refusal> {
        self.word(Kind::Component)?;
        let mut component = Component { name: self.atom()?, constraints: Vec::new(), terminal: None };
        self.expect(Kind::Semicolon)?;
        let mut seen = Seen::default();
        loop {
            match self.kind() {
                Kind::ScheduleConstraint => component.constraints.push(self.schedule_constraint()?),
                Kind::Terminal => component.terminal = Some(self.yes_or_no_attribute(&mut seen)?),
                _ if self.left_out_component_attribute()? => {}
                _ => return Ok(component),
            }
        }
    }

    fn schedule_constraint(&mut self) -> Result<Name<'text>, Refusal> {
        self.word(Kind::ScheduleConstraint)?;
        self.expect(Kind::Completed)?;
        self.expect(Kind::OpenRound)?;
        let name = self.atom()?;
        self.expect(Kind::CloseRound)?;
        self.expect(Kind::Semicolon)?;
        Ok(name)
    }

    pub(super) fn yes_or_no_attribute(&mut self, seen: &mut Seen) -> Result<bool, Refusal> {
        self.note_word(seen);
        self.word(self.kind())?;
        let yes = self.yes_or_no()?;
        self.expect(Kind::Semicolon)?;
        Ok(yes)
    }

    fn source(&mut self) -> Result<Source<'text>, Refusal> {
        self.notes.sources += 1;
        self.word(Kind::Source)?;
        let mut source = Source { name: self.data_name()?, texts: Vec::new(), mandatory: None };
        self.expect(Kind::Semicolon)?;
        let mut seen = Seen::default();
        loop {
            match self.kind() {
                Kind::Caption | Kind::Description => source.texts.push(self.condition(&mut seen)?),
                Kind::Mandatory => source.mandatory = Some(self.yes_or_no_attribute(&mut seen)?),
                _ => return Ok(source),
            }
        }
    }

    fn data_item(&mut self) -> Result<DataItem<'text>, Refusal> {
        self.word(Kind::Data)?;
        let name = self.data_name()?;
        self.expect(Kind::Semicolon)?;
        let declared = self.data_type()?;
        let texts = self.texts(&mut Seen::default())?;
        while self.kind() != Kind::End {
            self.left_out_data_attribute()?;
        }
        self.definition_end(Kind::Data)?;
        Ok(DataItem { name, declared, texts })
    }

    pub(super) fn data_type(&mut self) -> Result<DeclaredType, Refusal> {
        self.word(Kind::Type)?;
        let declared = self.atom_of(DeclaredType::named)?;
        self.expect(Kind::Semicolon)?;
        Ok(declared)
    }
}

fn new_task(class: Class, name: Name) -> Task {
    Task {
        class,
        name,
        texts: Vec::new(),
        precondition: None,
        wait_condition: None,
        terminate: None,
        trigger: None,
        postcondition: None,
        components: Vec::new(),
        sources: Vec::new(),
    }
}
