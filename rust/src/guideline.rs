//! A guideline and how it stands, with the public calls.

use crate::cells::{Cells, Form};
use crate::raw::{self, Outcome};
use crate::refusal::Refusal;
use crate::row::{kind, property, Component, Row};
use crate::rows::Rows;
use crate::tables::{Change, Tables, FLAG, TIME};
use crate::value::{Scalar, Value};

/// A guideline in its own tables. Calls may come in any order; a refused one changes nothing.
#[derive(Clone, Debug)]
pub struct Guideline {
    tables: Tables,
}

/// How a run ended.
#[derive(Clone, Copy, Debug, PartialEq, Eq, Hash)]
pub enum Ending {
    /// A cycle asked for nothing.
    Quiet,
    /// More was asked for, but the bound was reached.
    Bounded,
    /// Two different values met in one row: nothing runs from here on, but rows may be read.
    Exception,
}

/// What a run answers.
#[derive(Clone, Copy, Debug, PartialEq, Eq, Hash)]
pub struct Run {
    pub ending: Ending,
    /// The cycles that it enacted.
    pub cycles: u32,
}

impl Guideline {
    /// A guideline from its text, at engine time 0.
    ///
    /// ```
    /// use schotterei::Guideline;
    ///
    /// let watch = Guideline::load(b"plan :: watch; component :: dose; end plan. action :: dose; end action.");
    /// assert!(watch.is_ok());
    ///
    /// let refusal = Guideline::load(b"plan :: watch; component :: doze; end plan.").unwrap_err();
    /// assert_eq!((refusal.number, refusal.place), (4, 28));
    /// assert_eq!(refusal.to_string(), "refused with 4 at byte 28: a rule on names is broken");
    /// ```
    pub fn load(text: &[u8]) -> Result<Guideline, Refusal> {
        let mut guideline = Guideline::empty();
        guideline.reload(text)?;
        Ok(guideline)
    }

    /// Nothing is loaded: every call but `reload` is refused with 7.
    pub fn empty() -> Guideline {
        Guideline { tables: Tables::blank() }
    }

    /// Loads another text into the same tables, afresh. A refused one leaves nothing loaded.
    pub fn reload(&mut self, text: &[u8]) -> Result<(), Refusal> {
        let Tables { rows, parts, plan, waits, texts, state, .. } = &mut self.tables;
        done(raw::load(text, rows, parts, plan, waits, texts, state))
    }

    /// Runs the engine until a cycle asks for nothing, at most `bound` cycles (0 to 256).
    ///
    /// ```
    /// use schotterei::{Ending, Guideline};
    ///
    /// let mut watch = Guideline::load(b"plan :: watch; end plan.")?;
    /// let run = watch.run(256)?;
    /// assert_eq!((run.ending, run.cycles), (Ending::Quiet, 2));
    /// # Ok::<(), schotterei::Refusal>(())
    /// ```
    pub fn run(&mut self, bound: u64) -> Result<Run, Refusal> {
        let Tables { parts, plan, waits, texts, state, changes, .. } = &mut self.tables;
        ran(raw::run(parts, texts, plan, waits.as_slice(), state, changes, bound))
    }

    /// The same with a Changes table of the caller's: every row is blank afterwards. Fewer than 1,024 rows are refused
    /// with 6.
    pub fn run_with(&mut self, bound: u64, changes: &mut [Change]) -> Result<Run, Refusal> {
        let Tables { parts, plan, waits, texts, state, .. } = &mut self.tables;
        ran(raw::run(parts, texts, plan, waits.as_slice(), state, changes, bound))
    }

    /// Sets the engine time, in seconds: 0 to 4,294,967,295, also back.
    pub fn set_time(&mut self, seconds: u64) -> Result<(), Refusal> {
        done(raw::set_time(&mut self.tables.state, seconds))
    }

    /// Confirms a task, by its number in the order of the text; the root is 0.
    pub fn confirm(&mut self, task: u64) -> Result<(), Refusal> {
        let Tables { plan, state, .. } = &mut self.tables;
        done(raw::confirm(plan, state, task))
    }

    /// Adds a value to a data item, by its number in the order of the text.
    ///
    /// ```
    /// use schotterei::{property, Component, Guideline, Row, Scalar, Value};
    ///
    /// let text = b"plan :: watch; end plan. data :: depths; type :: setof_integer; end data.";
    /// let mut watch = Guideline::load(text)?;
    /// let depths = watch.data_item(b"depths").unwrap();
    /// watch.add(depths.number, &Value::from([12, 3, 15]))?;
    /// assert_eq!(watch.read(depths, property::VALUE)?, Some(Row::Value(Value::from([12, 3, 15]))));
    ///
    /// let refusal = watch.add(depths.number, &Value::from("deep")).unwrap_err();
    /// assert_eq!(refusal.to_string(), "refused with 9: the value is not of the data item's type");
    /// # Ok::<(), schotterei::Refusal>(())
    /// ```
    pub fn add(&mut self, item: u64, value: &Value) -> Result<(), Refusal> {
        let Tables { texts, plan, state, .. } = &mut self.tables;
        let Cells { tags, numbers, bytes } = Cells::of(value);
        done(raw::add(texts, plan, state, item, &tags, &numbers, &bytes))
    }

    /// Sends a trigger, of at most 48 bytes, none over 127. One that no task has changes nothing.
    pub fn trigger(&mut self, name: &[u8]) -> Result<(), Refusal> {
        let Tables { texts, plan, state, .. } = &mut self.tables;
        done(raw::trigger(texts, plan, state, name))
    }

    /// A row of the Properties table; none if there is no such row. Also after an exception.
    pub fn read(&self, component: Component, property: u64) -> Result<Option<Row>, Refusal> {
        let Tables { plan, waits, texts, state, .. } = &self.tables;
        let Component { kind, number } = component;
        let Form { mut cells, mut bytes } = Form::BLANK;
        let shown =
            raw::read(texts, plan, waits.as_slice(), state, kind, number, property, &mut cells, &mut bytes);
        match shown.number {
            0 => Ok(Row::shown(shown, || Form { cells, bytes }.value())),
            number => Err(Refusal { number, place: 0 }),
        }
    }

    /// Every row, by kind, then component, then property.
    ///
    /// ```
    /// use schotterei::{kind, property, Component, Guideline, Row, State};
    ///
    /// let mut watch = Guideline::load(b"plan :: watch; end plan.")?;
    /// let root = Component { kind: kind::TASK, number: 0 };
    /// assert!(watch.rows()?.any(|row| row == (root, property::STATE, Row::State(State::Dormant))));
    /// # Ok::<(), schotterei::Refusal>(())
    /// ```
    pub fn rows(&self) -> Result<Rows<'_>, Refusal> {
        self.read(Component { kind: kind::TASK, number: 0 }, property::CLASS)?;
        Ok(Rows::of(self))
    }

    /// The task of this name; the root has none.
    pub fn task(&self, name: &[u8]) -> Option<Component> {
        self.named(kind::TASK, name)
    }

    /// The data item of this name.
    pub fn data_item(&self, name: &[u8]) -> Option<Component> {
        self.named(kind::DATA_ITEM, name)
    }

    fn named(&self, kind: u64, name: &[u8]) -> Option<Component> {
        let wanted = Row::Value(Value::One(Scalar::Text(name.to_vec())));
        let mut rows = self.rows().ok()?.filter(|(_, property, _)| *property == property::NAME);
        rows.find(|(component, _, row)| component.kind == kind && *row == wanted)
            .map(|(component, _, _)| component)
    }

    /// The engine time, in seconds.
    pub fn time(&self) -> u32 {
        self.tables.state[TIME]
    }

    /// Whether the Exception flag is set.
    pub fn has_exception(&self) -> bool {
        self.tables.state[FLAG] == 1
    }
}

fn done(outcome: Outcome) -> Result<(), Refusal> {
    match outcome.number {
        0 => Ok(()),
        number => Err(Refusal { number, place: outcome.place }),
    }
}

fn ran(outcome: Outcome) -> Result<Run, Refusal> {
    done(outcome)?;
    let ending = match outcome.ending {
        raw::QUIET => Ending::Quiet,
        raw::BOUNDED => Ending::Bounded,
        _ => Ending::Exception,
    };
    Ok(Run { ending, cycles: outcome.count })
}
