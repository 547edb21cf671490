//! The net's events and their dependence as Graphviz text: the picture of
//! what a call-off would undo.

use crate::dependence::{reasons, Dependence};
use crate::names::{Key, Keys, Localities};
use crate::net::{Net, Process};
use crate::random::Random;
use crate::rollback::rollback;
use crate::script::Script;
use crate::text_write::action;

/// An arrow goes from an event to one that depends directly on it; the
/// dependents of the marked event are filled.
pub fn dot(script: &Script, net: &Net, mark: Option<Key>) -> String {
    let dependence = Dependence::of(script, net);
    let marked = mark.map_or(Keys::default(), |key| dependence.dependents(key));
    let mut text = "digraph net {\n    rankdir=LR;\n    node [shape=box];\n".to_string();
    if let Some(event) = mark {
        text += &format!("    label=\"{}\";\n", call_off(script, net, event));
    }
    for (key, process, _) in net.events() {
        text += &event_line(script, key, process, marked.contains(key));
    }
    for (e, _, _) in net.events() {
        for f in dependence.directly_on(e).iter() {
            let why = reasons(script, net, f, e).join(", ");
            text += &format!("    k{e} -> k{f} [label=\"{why}\"];\n");
        }
    }
    text + "}\n"
}

fn event_line(script: &Script, key: Key, process: &Process, marked: bool) -> String {
    let action = action(script.node(process.node));
    let fill = if marked {
        ", style=filled, fillcolor=orange"
    } else {
        ""
    };
    format!(
        "    k{key} [label=\"{key}: {action}\\nat l{}\"{fill}];\n",
        process.locality
    )
}

/// What the rollback of this event would report.
fn call_off(script: &Script, net: &Net, event: Key) -> String {
    match rollback(script, &mut net.clone(), event, &mut Random::new(0)) {
        Ok(undoing) => format!(
            "rollback of {event}: undone {}, touched{}",
            undoing.undone,
            localities(undoing.touched)
        ),
        Err(_) => format!("rollback of {event} sticks"),
    }
}

fn localities(set: Localities) -> String {
    set.iter().map(|l| format!(" l{l}")).collect()
}
