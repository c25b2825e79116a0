//! Nodes of the arena as text, and their links. The build makes this a child module of the substituted de.rs, because
//! only its descendants can see its `Node`.

use judge::hex;

use super::{Global, Node, NodeId, Value};
use crate::tape::{Stop, Tape};

/// The links that a node has when it is made.
pub fn links(node: &Node) -> usize {
    match node {
        Node::List(items) | Node::Tuple(items) => items.len(),
        Node::Dict(entries) => 2 * entries.len(),
        Node::Value(_) | Node::Set(..) | Node::Object { .. } => 0,
    }
}

/// Log the node table at STOP.
pub fn stop(tape: &mut Tape, root: NodeId, nodes: &[Node]) {
    let nodes = if tape.wants_nodes { nodes.iter().map(show).collect() } else { Vec::new() };
    tape.stop = Some(Stop { root, nodes });
}

/// KIND/LABEL/CHILDREN, `-` for nothing.
fn show(node: &Node) -> String {
    match node {
        Node::Value(value) => show_value(value),
        Node::List(items) => format!("list/-/{}", numbers(items)),
        Node::Tuple(items) => format!("tuple/-/{}", numbers(items)),
        Node::Dict(entries) => {
            let items: Vec<NodeId> = entries.iter().flat_map(|&(key, value)| [key, value]).collect();
            format!("dict/-/{}", numbers(&items))
        }
        Node::Set(argument, frozen) => format!("set/{}/{argument}", u8::from(*frozen)),
        Node::Object { class, args, new, state } => {
            let children: Vec<NodeId> = [Some(*args), *state].into_iter().flatten().collect();
            format!("object/{},{}/{}", names(class), u8::from(*new), numbers(&children))
        }
    }
}

fn show_value(value: &Value) -> String {
    match value {
        Value::Bool(value) => format!("bool/{}/-", u8::from(*value)),
        Value::I64(value) => format!("int/{:016x}/-", *value as u64),
        Value::F64(value) => format!("float/{:016x}/-", value.to_bits()),
        Value::Bytes(value) => format!("bytes/{}/-", hex::of_bytes(value)),
        Value::String(value) => format!("string/{}/-", hex::of_bytes(value.as_bytes())),
        Value::Global(global) => format!("global/{}/-", names(global)),
        // No opcode makes a node of another value.
        _ => "none/-/-".to_string(),
    }
}

fn names(global: &Global) -> String {
    format!("{},{}", hex::of_bytes(global.module.as_bytes()), hex::of_bytes(global.name.as_bytes()))
}

fn numbers(ids: &[NodeId]) -> String {
    if ids.is_empty() {
        return "-".to_string();
    }
    ids.iter().map(|id| id.to_string()).collect::<Vec<_>>().join(",")
}
