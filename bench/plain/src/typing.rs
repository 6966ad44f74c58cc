//! Refusal 5, and from expressions to formulas: each part gets its type, and
//! names in it the numbers of the items and tasks they find.

use crate::directory::Directory;
use crate::formula::Formula;
use crate::number::Number;
use crate::operators::Functor;
use crate::refusal::Smallest;
use crate::syntax::{DataItem, Expression, Outermost};
use crate::types::{applied, Type};
use crate::value::Value;

/// Where expressions find items and tasks, and where breaches are noted.
pub struct Typing<'text> {
    pub data_items: &'text [DataItem<'text>],
    pub items: &'text Directory<'text>,
    pub tasks: &'text Directory<'text>,
    /// The smallest start of an expression that has no fitting type.
    pub untyped: Smallest,
}

impl Typing<'_> {
    /// An outermost expression of a wanted type; promotion may reach an item's.
    pub fn formula(&mut self, outermost: &Outermost, wanted: Type, promotes: bool) -> Option<Formula> {
        let fits = |found: &(Formula, Type)| found.1 == wanted || (promotes && found.1.serves_as(wanted));
        let found = self.typed(&outermost.expression).filter(fits);
        if found.is_none() {
            self.untyped.note(outermost.place);
        }
        found.map(|(formula, _)| formula)
    }

    /// 4.1: the formula of an expression and its type, if it has one.
    fn typed(&self, expression: &Expression) -> Option<(Formula, Type)> {
        Some(match expression {
            Expression::Atom(name) => match self.items.find_folded(name) {
                Some(item) => (Formula::Item(item), self.data_items[item].declared.inferred()),
                None => (text(name), Type::Text),
            },
            Expression::Number(number) => (Formula::Constant(Value::Number(*number)), type_of(*number)),
            Expression::Text(written) => (text(written), Type::Text),
            Expression::List(elements) => self.list(elements)?,
            Expression::Infix(operator, operands) => {
                let (left, left_type) = self.typed(&operands[0])?;
                let (right, right_type) = self.typed(&operands[1])?;
                let result = applied(operator.signatures(), &[left_type, right_type])?;
                (Formula::Infix(*operator, Box::new([left, right])), result)
            }
            Expression::Call(functor, arguments) => self.call(*functor, arguments)?,
            Expression::Refused => return None,
        })
    }

    /// A list; one of constants alone is itself a constant.
    fn list(&self, elements: &[Expression]) -> Option<(Formula, Type)> {
        let mut list_type = Type::SetofAnything;
        let mut formulas = Vec::with_capacity(elements.len());
        for element in elements {
            let (formula, element_type) = self.typed(element)?;
            list_type = list_type.with_element(element_type)?;
            formulas.push(formula);
        }
        let constants: Option<Vec<Value>> = formulas.iter().map(constant).collect();
        let formula = match constants {
            Some(values) => Formula::Constant(Value::List(values.into())),
            None => Formula::List(formulas.into()),
        };
        Some((formula, list_type))
    }

    fn call(&self, functor: Functor, arguments: &[Expression]) -> Option<(Formula, Type)> {
        let mut formulas = Vec::with_capacity(arguments.len());
        let mut types = Vec::with_capacity(arguments.len());
        for argument in arguments {
            let (formula, its_type) = self.typed(argument)?;
            formulas.push(formula);
            types.push(its_type);
        }
        let result = applied(functor.signatures(), &types)?;
        Some((self.call_formula(functor, formulas), result))
    }

    /// A call, or what it comes to if it asks for a task by a constant name.
    fn call_formula(&self, functor: Functor, arguments: Vec<Formula>) -> Formula {
        match (functor, &arguments[..]) {
            (Functor::Is(state), [Formula::Constant(Value::Text(name))]) => {
                match self.tasks.find_folded(name) {
                    // The root has no name row: no text finds it.
                    Some(task) if task != 0 => Formula::TaskIs(state, task),
                    _ => Formula::Constant(Value::Unknown),
                }
            }
            _ => Formula::Call(functor, arguments.into()),
        }
    }
}

fn text(written: &[u8]) -> Formula {
    Formula::Constant(Value::Text(written.into()))
}

fn type_of(number: Number) -> Type {
    match number {
        Number::Integer(_) => Type::Integer,
        Number::Real(_) => Type::Real,
    }
}

fn constant(formula: &Formula) -> Option<Value> {
    match formula {
        Formula::Constant(value) => Some(value.clone()),
        _ => None,
    }
}
