//! Lines that read a graph or a run, and lines on an expression alone.

use crate::graph::{Items, Kind, expression};
use crate::maker::Maker;

/// The most variables of an expression that stands alone.
const VARS: usize = 16;

impl Maker<'_> {
    /// A value, a clock, the places, or the kind of a variable.
    pub fn reader_line(&mut self) -> String {
        match self.chance.below(6) {
            0..=1 => format!("r value {}", self.maybe_var()),
            2..=3 => format!("r clock {}", self.maybe_clock()),
            4 => "r places".to_string(),
            _ => format!("g kind {}", self.maybe_var()),
        }
    }

    /// The kind, the draws or the value of an expression.
    pub fn expression_line(&mut self) -> String {
        let items = self.some_expression();
        let text = expression(&items);
        match self.chance.below(7) {
            0 => format!("draws {text}"),
            1..=3 => format!("type {text} {}", self.kinds()),
            _ => {
                let values = self.values();
                format!("eval {text} ({values} ) {}", self.draw_word())
            }
        }
    }

    fn some_expression(&mut self) -> Items {
        match self.chance.below(8) {
            0..=1 => self.maybe_expression(),
            2 => self.broken_number(),
            3 => {
                let draws = *self.chance.pick(&[1, 2, 31, 32, 33, 50]);
                self.drawing(draws)
            }
            4..=5 => self.typed(Kind::Int, 9),
            _ => self.assigned(Kind::Bool),
        }
    }

    /// The kinds of the graph's variables, mostly.
    fn kinds(&mut self) -> String {
        let mut kinds: Vec<Kind> = self.graph.vars.iter().map(|val| val.kind()).collect();
        if self.chance.percent(25) {
            kinds = (0..self.chance.from_to(0, VARS))
                .map(|_| self.any_value().kind())
                .collect();
        }
        let letter = |kind: &Kind| if *kind == Kind::Bool { 'b' } else { 'i' };
        if kinds.is_empty() {
            return "-".to_string();
        }
        kinds.iter().map(letter).collect()
    }

    /// Values of the graph's variables, mostly; a blank before each.
    fn values(&mut self) -> String {
        let kinds: Vec<Kind> = self.graph.vars.iter().map(|val| val.kind()).collect();
        let mut values = vec![];
        for kind in kinds {
            values.push(self.value(kind));
        }
        if self.chance.percent(25) {
            values = (0..self.chance.from_to(0, VARS))
                .map(|_| self.any_value())
                .collect();
        }
        values
            .iter()
            .map(|val| format!(" {}", val.text()))
            .collect()
    }
}
