//! Scripts of calls over guidelines that load. A session runs beside the
//! making, so that most runs find something to do.

use super::figures::Figures;
use super::random::Random;
use super::running::TRIGGERS;
use super::{damage, givens, running};
use crate::calls::Session;
use crate::component::{Component, Kind, Property};
use crate::engine::Engine;
use crate::guideline::TaskState;
use crate::limits::{CHANGES_ROWS, CYCLES, ENGINE_TIME};
use crate::replay::answer;
use crate::script::{written, Call};
use crate::tables::RowValue;
use crate::types::Type;

/// Scripts, one after the other, and what they came to.
pub struct Scripts {
    random: Random,
    left: usize,
    pub figures: Figures,
}

/// As many scripts as are asked for.
pub fn scripts(seed: u64, count: usize) -> Scripts {
    Scripts { random: Random::new(seed), left: count, figures: Figures::default() }
}

impl Iterator for Scripts {
    type Item = Vec<u8>;

    fn next(&mut self) -> Option<Vec<u8>> {
        self.left = self.left.checked_sub(1)?;
        let Scripts { random, figures, .. } = self;
        figures.scripts += 1;
        let mut making = Making { random, figures, session: Session::default(), calls: Vec::new() };
        making.script();
        Some(written(&making.calls))
    }
}

/// A script in the making.
struct Making<'maker> {
    random: &'maker mut Random,
    figures: &'maker mut Figures,
    session: Session,
    calls: Vec<Call>,
}

impl Making<'_> {
    /// Now and then calls before any load; then a guideline or a few.
    fn script(&mut self) {
        if self.random.chance(8) {
            self.any_calls(3);
        }
        self.guideline();
        while self.random.chance(12) {
            self.guideline();
        }
    }

    /// Makes a call and, unless it only reads, reads every row after it.
    fn put(&mut self, call: Call) {
        let only_reads = matches!(call, Call::Row(..) | Call::Rows);
        self.remember(call);
        if !only_reads {
            self.remember(Call::Rows);
        }
    }

    /// Makes a call, and remembers it and its answer.
    fn remember(&mut self, call: Call) {
        let answer = answer(&mut self.session, &call);
        self.figures.count(&call, &answer);
        self.calls.push(call);
    }

    /// Loads a guideline and makes calls until there is no more to do.
    fn guideline(&mut self) {
        let text = running::text(self.random);
        self.put(Call::Load(text.clone()));
        let steps = 2 + self.random.below(12);
        for _ in 0..steps {
            if self.engine().is_some_and(|engine| engine.exception) {
                return self.any_calls(3);
            }
            match self.random.below(100) {
                0 | 1 => self.refused_load(&text),
                2 => self.every_row(),
                3 | 4 => self.confirm_every_task(),
                5..=34 => self.any_calls(2),
                _ => self.go_on(),
            }
        }
    }

    fn engine(&self) -> Option<&Engine> {
        self.session.reading().ok()
    }

    /// A text that is mostly refused, some calls on nothing, and the good text
    /// again, if it is to go on.
    fn refused_load(&mut self, text: &[u8]) {
        let mut bad = text.to_vec();
        match self.random.below(3) {
            0 => bad.clear(),
            1 => bad.truncate(text.len() / 2),
            _ => damage::a_byte(&mut bad, self.random),
        }
        self.put(Call::Load(bad));
        self.any_calls(3);
        if self.random.chance(80) {
            self.put(Call::Load(text.to_vec()));
        }
    }

    /// Every row that there is, one by one.
    fn every_row(&mut self) {
        let places: Vec<(usize, usize, usize)> = self.places();
        for (kind, number, property) in places {
            self.put(Call::Row(kind, number, property));
        }
    }

    /// The numbers of every row's kind, component and property.
    fn places(&self) -> Vec<(usize, usize, usize)> {
        let place = |component: Component, property: Property| {
            (component.kind as usize, component.number, property as usize)
        };
        let rows = self.engine().into_iter().flat_map(|engine| engine.properties.rows());
        rows.map(|(component, property, _)| place(component, property)).collect()
    }

    fn confirm_every_task(&mut self) {
        for task in 0..self.how_many(Kind::Task) {
            self.put(Call::Confirm(task));
        }
    }

    fn how_many(&self, kind: Kind) -> usize {
        self.engine().map_or(0, |engine| engine.properties.components(kind).count())
    }

    /// A run, if it will do something; else what may help, and then a run.
    fn go_on(&mut self) {
        if !self.would_act() {
            self.help();
        }
        if self.random.chance(30) {
            let time = self.time();
            self.put(Call::Time(time));
        }
        if self.would_act() || self.random.chance(15) {
            let bound = self.random.pick(&[1, 1, 2, 3, CYCLES, CYCLES, CYCLES, CYCLES - 1]);
            let lent = self.random.pick(&[CHANGES_ROWS, CHANGES_ROWS, CHANGES_ROWS + 1, 8_192]);
            self.put(Call::Run { bound, lent });
        }
    }

    fn would_act(&self) -> bool {
        self.engine().is_some_and(|engine| !engine.exception && !engine.review_all().is_empty())
    }

    /// Confirms, answers and triggers what waits for that; or adds a value
    /// that a condition may wait for.
    fn help(&mut self) {
        let mut helpful = self.helpful();
        self.random.shuffle(&mut helpful);
        let all = self.random.chance(60);
        let few = 1 + self.random.below(2);
        helpful.truncate(if all { helpful.len() } else { few });
        for call in helpful {
            self.put(call);
        }
        let items = self.how_many(Kind::DataItem);
        if items > 0 && !self.would_act() {
            let item = self.random.below(items);
            let value = givens::right(self.item_type(item), self.random);
            self.put(Call::Add(item, value));
        }
    }

    /// The calls that tasks wait for.
    fn helpful(&mut self) -> Vec<Call> {
        let Ok(engine) = self.session.reading() else { return Vec::new() };
        let mut calls = Vec::new();
        for task in engine.tasks() {
            let runs = engine.state_is(task, TaskState::InProgress);
            if runs && engine.is_true(task, Property::Confirmatory) {
                calls.push(Call::Confirm(task.number));
            }
            let trigger = engine.properties.text(task, Property::Trigger);
            if let Some(trigger) = trigger.filter(|_| !runs) {
                calls.push(Call::Trigger(trigger.as_bytes().to_vec()));
            }
        }
        for item in engine.properties.components(Kind::DataItem) {
            if engine.is_true(item, Property::Requested) {
                let value = givens::right(item_type(engine, item.number), self.random);
                calls.push(Call::Add(item.number, value));
            }
        }
        calls
    }

    fn item_type(&self, item: usize) -> Type {
        self.engine().map_or(Type::Text, |engine| item_type(engine, item))
    }

    /// Some calls of any kind, right or wrong.
    fn any_calls(&mut self, most: usize) {
        for _ in 0..1 + self.random.below(most) {
            let call = self.any_call();
            self.put(call);
        }
    }

    fn any_call(&mut self) -> Call {
        match self.random.below(20) {
            0 | 1 => self.any_run(),
            2..=4 => Call::Time(self.time()),
            5..=7 => Call::Confirm(self.number(Kind::Task)),
            8..=11 => {
                let item = self.number(Kind::DataItem);
                let wanted = self.item_type(item);
                Call::Add(item, givens::value(wanted, self.random))
            }
            12 | 13 => Call::Trigger(self.trigger()),
            14..=18 => self.any_row(),
            _ => Call::Rows,
        }
    }

    /// Bounds and tables within their limits and beyond.
    fn any_run(&mut self) -> Call {
        let bound = self.random.pick(&[0, 0, 1, CYCLES, CYCLES, CYCLES + 1, 1 << 32, (1 << 63) - 1]);
        let least = CHANGES_ROWS;
        let lent = self.random.pick(&[least, least, least, least - 1, least - 1, 0, 1]);
        Call::Run { bound, lent }
    }

    /// A little on, back, at both ends, or past the end.
    fn time(&mut self) -> u64 {
        let now = self.engine().map_or(0, |engine| u64::from(engine.engine_time));
        match self.random.below(10) {
            0..=4 => (now + self.random.below(100) as u64).min(ENGINE_TIME),
            5 => now.saturating_sub(1 + self.random.below(1_000) as u64),
            6 => self.random.below(1 << 32) as u64,
            7 => ENGINE_TIME,
            8 => self.random.pick(&[0, 0, 1, 2_000_000, 2_000_001, (1 << 31) - 1, 1 << 31]),
            _ => self.random.pick(&[ENGINE_TIME + 1, 1 << 33, (1 << 63) - 1]),
        }
    }

    /// The number of a component, and now and then of none.
    fn number(&mut self, kind: Kind) -> usize {
        let count = self.how_many(kind);
        match self.random.chance(12) || count == 0 {
            true => self.random.pick(&[count, count + 1, 32, 64, 255, 256, (1 << 32) - 1]),
            false => self.random.below(count),
        }
    }

    /// A trigger that some task has, one that none has, or one past a limit.
    fn trigger(&mut self) -> Vec<u8> {
        match self.random.below(10) {
            0..=5 => self.random.pick(&TRIGGERS).as_bytes().to_vec(),
            6 => b"RAIN".to_vec(),
            7 => vec![b'r', self.random.pick(&[127, 128, 255])],
            8 => vec![b'a'; 48],
            _ => vec![b'a'; self.random.pick(&[49, 64])],
        }
    }

    /// A row that is there, or any place at all.
    fn any_row(&mut self) -> Call {
        let places = self.places();
        if !places.is_empty() && self.random.chance(60) {
            let (kind, number, property) = self.random.pick(&places);
            return Call::Row(kind, number, property);
        }
        let kind = self.random.pick(&[0, 0, 1, 1, 2, 3, 4, 5, 5, 6, 7, 255, (1 << 32) - 1]);
        let number = self.random.pick(&[0, 0, 1, 2, 3, 31, 32, 64, 128, (1 << 32) - 1]);
        let property = self.random.below(64) + if self.random.chance(3) { 1 << 16 } else { 0 };
        Call::Row(kind, number, property)
    }
}

/// The inferred type of an item; text if there is no such item.
fn item_type(engine: &Engine, item: usize) -> Type {
    match engine.properties.get(Component::data_item(item), Property::Type) {
        Some(RowValue::Type(declared)) => declared.inferred(),
        _ => Type::Text,
    }
}
