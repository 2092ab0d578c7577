//! Names for the parts of a system, for those who print what happened.

use crate::channel_system::{Action, Called, Cause, Channel, Clock, Location, PgId, Var};
use std::collections::BTreeMap;

/// What people call the parts of a system. What has no name is called by its number.
///
/// ```
/// use njunnemar::Names;
/// use njunnemar::channel_system::{ChannelSystemBuilder, CsError};
///
/// let mut cs_builder = ChannelSystemBuilder::new();
/// let (tab, other) = (cs_builder.new_program_graph()?, cs_builder.new_program_graph()?);
/// let mut names = Names::new();
/// names.graph(tab, "tab");
/// assert_eq!(names.of_graph(tab), "tab");
/// assert_eq!(names.of_graph(other), "graph 1");
/// # Ok::<(), CsError>(())
/// ```
#[derive(Debug, Clone, Default)]
pub struct Names {
    graphs: BTreeMap<PgId, String>,
    channels: BTreeMap<Channel, String>,
    locations: BTreeMap<Location, String>,
    actions: BTreeMap<Action, String>,
    vars: BTreeMap<Var, String>,
    clocks: BTreeMap<Clock, String>,
}

macro_rules! named {
    ($part:ident, $set:ident, $get:ident, $of:ident) => {
        /// Gives a name.
        pub fn $set(&mut self, part: $part, name: &str) -> $part {
            self.$of.insert(part, name.to_string());
            part
        }

        /// The name, or the number.
        pub fn $get(&self, part: $part) -> String {
            let name = self.$of.get(&part).cloned();
            name.unwrap_or_else(|| part.to_string())
        }
    };
}

impl Names {
    /// No names yet.
    pub fn new() -> Self {
        Self::default()
    }

    named!(PgId, graph, of_graph, graphs);
    named!(Channel, channel, of_channel, channels);
    named!(Location, location, of_location, locations);
    named!(Action, action, of_action, actions);
    named!(Var, var, of_var, vars);
    named!(Clock, clock, of_clock, clocks);

    /// A cause in words. What has no name is called by its number in the graph.
    pub fn of_cause(&self, cause: &Cause) -> String {
        cause.told(&Called {
            location: &|location| self.locations.get(&location).cloned().unwrap_or_else(|| location.in_graph().to_string()),
            var: &|var| self.vars.get(&var).cloned().unwrap_or_else(|| var.in_graph().to_string()),
            clock: &|clock| self.clocks.get(&clock).cloned().unwrap_or_else(|| clock.in_graph().to_string()),
        })
    }
}
