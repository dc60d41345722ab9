//! From terms to text (document 01, *The other calls*, Write; spaced as in the
//! document's examples).

use crate::term::{Component, Definition, Network, Part, Process, Timer, Value};

/// The written network: a line for each definition, then the components.
/// Marks are not shown; the call that writes refuses them.
pub fn network(network: &Network) -> String {
    let mut text = String::new();
    for definition in &network.script.definitions {
        push_definition(&mut text, definition);
        text.push('\n');
    }
    for (position, component) in network.components.iter().enumerate() {
        if position > 0 {
            text.push_str(" | ");
        }
        text.push_str(&component.location);
        text.push('[');
        push_process(&mut text, &component.process);
        text.push(']');
    }
    text.push_str(" .\n");
    text
}

/// A definition as it stands on its line, without the line feed.
pub fn definition(definition: &Definition) -> String {
    let mut text = String::new();
    push_definition(&mut text, definition);
    text
}

/// A component with its mark: `Location[owner] parts`, brackets empty if
/// there is no mark.
pub fn component(component: &Component) -> String {
    let mut text = component.location.clone();
    text.push('[');
    text.push_str(component.mark.as_deref().unwrap_or(""));
    text.push_str("] ");
    push_process(&mut text, &component.process);
    text
}

/// A process, its parts joined by ` | `.
pub fn process(process: &Process) -> String {
    let mut text = String::new();
    push_process(&mut text, process);
    text
}

fn push_definition(text: &mut String, definition: &Definition) {
    text.push_str(&definition.identifier);
    let parameters = definition.parameters.iter().map(String::as_str);
    push_bracketed(text, parameters);
    text.push_str(" = ");
    push_process(text, &definition.body);
    text.push_str(" .");
}

fn push_process(text: &mut String, process: &Process) {
    for (index, part) in process.parts.iter().enumerate() {
        if index > 0 {
            text.push_str(" | ");
        }
        push_part(text, part);
    }
}

fn push_part(text: &mut String, part: &Part) {
    match part {
        Part::Stop => text.push_str("stop"),
        Part::Go {
            timer,
            target,
            then,
        } => {
            text.push_str("go(");
            push_timer(text, *timer);
            text.push(',');
            text.push_str(spelling(target));
            text.push(',');
            push_process(text, then);
            text.push(')');
        }
        Part::Out {
            channel,
            timer,
            value,
            then,
            otherwise,
        } => {
            push_exchange(
                text,
                "out(",
                channel,
                *timer,
                spelling(value),
                [then, otherwise],
            );
        }
        Part::In {
            channel,
            timer,
            variable,
            then,
            otherwise,
        } => {
            push_exchange(text, "in(", channel, *timer, variable, [then, otherwise]);
        }
        Part::Call {
            identifier,
            arguments,
        } => {
            text.push_str(identifier);
            push_bracketed(text, arguments.iter().map(spelling));
        }
    }
}

fn push_exchange(
    text: &mut String,
    opening: &str,
    channel: &str,
    timer: Timer,
    name: &str,
    branches: [&Process; 2],
) {
    text.push_str(opening);
    text.push_str(channel);
    text.push(',');
    push_timer(text, timer);
    text.push(',');
    text.push_str(name);
    for branch in branches {
        text.push(',');
        push_process(text, branch);
    }
    text.push(')');
}

/// Names in brackets with commas, or nothing if there are none.
fn push_bracketed<'a>(text: &mut String, names: impl Iterator<Item = &'a str>) {
    let before = text.len();
    for name in names {
        text.push(if text.len() == before { '(' } else { ',' });
        text.push_str(name);
    }
    if text.len() > before {
        text.push(')');
    }
}

fn push_timer(text: &mut String, timer: Timer) {
    match timer {
        Timer::Ticks(ticks) => text.push_str(&ticks.to_string()),
        Timer::Inf => text.push_str("inf"),
    }
}

/// The name that a value is written by.
pub fn spelling(value: &Value) -> &str {
    match value {
        Value::Location(name) | Value::Variable(name) => name,
    }
}
