//! Building a system by docs/RULES.md: the first check that objects, in its order.

use crate::answer::Answer;
use crate::building::{self, Objection};
use crate::call::Building;
use crate::expression;
use crate::system_call::SystemBuilding;
use crate::system_table::{Channel, MOST_CHANNELS, MOST_GRAPHS, Member, System};
use crate::table::MOST_VALUES;
use scan_core::Type;

type Check = Result<(), Objection>;

pub fn check_graph(system: &System) -> Check {
    room(system.members.len(), MOST_GRAPHS)
}

pub fn check_channel(system: &System, channel: &Channel) -> Check {
    if channel.width() > MOST_VALUES {
        return Err(Objection::ListTooLong);
    }
    if channel.too_large() {
        return Err(Objection::Refused(31));
    }
    room(system.channels.len(), MOST_CHANNELS)
}

pub fn check(system: &System, graph: u32, building: &SystemBuilding) -> Check {
    let member = system.members.get(graph as usize);
    let member = member.ok_or(Objection::Refused(17))?;
    match building {
        SystemBuilding::Own(own) => building::check(&member.graph, own),
        SystemBuilding::Send(channel, messages) => {
            let kinds = kinds_of(system, *channel)?;
            let sent = |member: &Member| {
                messages
                    .iter()
                    .map(|items| expression::type_of(items, &member.graph.vars))
                    .map(|typed| typed.expect("typed before").kind)
                    .collect()
            };
            check_message(member, &Building::Send(messages.clone()), kinds, sent)
        }
        SystemBuilding::Receive(channel, vars) => {
            let kinds = kinds_of(system, *channel)?;
            let received = |member: &Member| {
                vars.iter()
                    .map(|&var| member.graph.vars[var as usize].r#type())
                    .collect()
            };
            check_message(member, &Building::Receive(vars.clone()), kinds, received)
        }
        SystemBuilding::Probe(channel, _) => {
            kinds_of(system, *channel)?;
            building::check(&member.graph, &Building::Send(vec![]))
        }
    }
}

fn kinds_of(system: &System, channel: u32) -> Result<&[Type], Objection> {
    match system.channels.get(channel as usize) {
        Some(channel) => Ok(&channel.kinds),
        None => Err(Objection::Refused(30)),
    }
}

/// What the graph objects to, but for 28 that comes last; then 5; then that 28.
fn check_message(
    member: &Member,
    own: &Building,
    kinds: &[Type],
    handed: impl Fn(&Member) -> Vec<Type>,
) -> Check {
    let graph = building::check(&member.graph, own);
    match graph {
        Err(Objection::Refused(_) | Objection::ListTooLong) => graph,
        Ok(()) | Err(Objection::TableFull) if handed(member) == kinds => graph,
        Ok(()) | Err(Objection::TableFull) => Err(Objection::Refused(5)),
    }
}

pub fn accepted(building: &SystemBuilding, number: u32) -> Answer {
    match building {
        SystemBuilding::Own(own) => building::accepted(own, number),
        _ => Answer::Number(number),
    }
}

fn room(count: usize, most: usize) -> Check {
    if count >= most {
        Err(Objection::TableFull)
    } else {
        Ok(())
    }
}
