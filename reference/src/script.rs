//! A script taken apart: sixty-four nodes.

use crate::names::{Locality, NodeName, Reference, Variable};
use crate::script_form::{
    field_bytes, first_broken_script_rule, node_byte, tag, BrokenScript, FieldUse, Kind,
    ReferenceUse, TargetUse, NODES_AT, NODE_LENGTH, SCRIPT_LENGTH, SCRIPT_MARK, VERSION,
};

/// A literal locality, or a variable.
#[derive(Clone, Copy, PartialEq, Eq, Debug)]
pub enum Target {
    Literal(Locality),
    Variable(Variable),
}

/// A field of an out, an in or a read.
#[derive(Clone, Copy, PartialEq, Eq, Debug)]
pub enum Field {
    Value(u32),
    Literal(Locality),
    Variable(Variable),
    FormalValue(Variable),
    FormalLocality(Variable),
}

/// A node; what its kind does not use is empty, `next` and `other` are node 0.
#[derive(Clone, PartialEq, Eq, Debug)]
pub struct Node {
    pub kind: Kind,
    pub next: NodeName,
    pub other: NodeName,
    pub target: Option<Target>,
    pub reference: Option<Reference>,
    pub fields: Vec<Field>,
}

impl Node {
    pub fn nil() -> Node {
        let first = NodeName::new(0).expect("node 0");
        Node {
            kind: Kind::Nil,
            next: first,
            other: first,
            target: None,
            reference: None,
            fields: Vec::new(),
        }
    }

    /// Taken apart, if the bytes are in range.
    pub fn decode(bytes: &[u8]) -> Option<Node> {
        let kind = Kind::from_byte(bytes[node_byte::KIND])?;
        let uses = kind.uses();
        let target = match uses.target {
            TargetUse::Unused => None,
            _ => Some(decode_target(bytes)?),
        };
        let reference = match uses.reference {
            ReferenceUse::Unused => None,
            _ => Reference::optional(bytes[node_byte::REFERENCE])?,
        };
        let count = match uses.fields {
            FieldUse::Unused => 0,
            _ => usize::from(bytes[node_byte::FIELD_COUNT]).min(4),
        };
        let fields = (0..count)
            .map(|i| decode_field(bytes, i))
            .collect::<Option<_>>()?;
        Some(Node {
            kind,
            next: NodeName::new(u32::from(bytes[node_byte::NEXT]))?,
            other: NodeName::new(u32::from(bytes[node_byte::OTHER]))?,
            target,
            reference,
            fields,
        })
    }

    pub fn encode(&self) -> [u8; NODE_LENGTH] {
        let mut bytes = [0; NODE_LENGTH];
        bytes[node_byte::KIND] = self.kind as u8;
        bytes[node_byte::NEXT] = self.next.byte();
        bytes[node_byte::OTHER] = self.other.byte();
        match self.target {
            None => {}
            Some(Target::Literal(l)) => bytes[3..5].copy_from_slice(&[tag::LITERAL, l.byte()]),
            Some(Target::Variable(x)) => bytes[3..5].copy_from_slice(&[tag::VARIABLE, x.byte()]),
        }
        bytes[node_byte::REFERENCE] = Reference::byte_or_none(self.reference);
        bytes[node_byte::FIELD_COUNT] = self.fields.len() as u8;
        for (i, &field) in self.fields.iter().enumerate() {
            let (tag, number) = encode_field(field);
            bytes[node_byte::FIELD_TAGS + i] = tag;
            let at = node_byte::FIELD_NUMBERS + 4 * i;
            bytes[at..at + 4].copy_from_slice(&number.to_le_bytes());
        }
        bytes
    }
}

fn decode_target(bytes: &[u8]) -> Option<Target> {
    let number = u32::from(bytes[node_byte::TARGET]);
    match bytes[node_byte::TARGET_TAG] {
        tag::LITERAL => Locality::new(number).map(Target::Literal),
        tag::VARIABLE => Variable::new(number).map(Target::Variable),
        _ => None,
    }
}

fn decode_field(bytes: &[u8], i: usize) -> Option<Field> {
    let (tag, number) = field_bytes(bytes, i);
    match tag {
        tag::VALUE => Some(Field::Value(number)),
        tag::LITERAL => Locality::new(number).map(Field::Literal),
        tag::VARIABLE => Variable::new(number).map(Field::Variable),
        tag::FORMAL_VALUE => Variable::new(number).map(Field::FormalValue),
        tag::FORMAL_LOCALITY => Variable::new(number).map(Field::FormalLocality),
        _ => None,
    }
}

fn encode_field(field: Field) -> (u8, u32) {
    match field {
        Field::Value(number) => (tag::VALUE, number),
        Field::Literal(l) => (tag::LITERAL, u32::from(l.byte())),
        Field::Variable(x) => (tag::VARIABLE, u32::from(x.byte())),
        Field::FormalValue(x) => (tag::FORMAL_VALUE, u32::from(x.byte())),
        Field::FormalLocality(x) => (tag::FORMAL_LOCALITY, u32::from(x.byte())),
    }
}

/// Sixty-four nodes.
#[derive(Clone, PartialEq, Eq, Debug)]
pub struct Script {
    nodes: Vec<Node>,
}

impl Script {
    /// Every node nil.
    pub fn empty() -> Script {
        Script {
            nodes: vec![Node::nil(); NodeName::COUNT],
        }
    }

    /// Check 1: the script's length and form.
    pub fn read(bytes: &[u8]) -> Result<Script, BrokenScript> {
        if let Some(broken) = first_broken_script_rule(bytes) {
            return Err(broken);
        }
        let nodes = bytes[NODES_AT..SCRIPT_LENGTH]
            .chunks(NODE_LENGTH)
            .map(|node| Node::decode(node).expect("the form was checked"))
            .collect();
        Ok(Script { nodes })
    }

    pub fn write(&self) -> Vec<u8> {
        let mut bytes = vec![0; NODES_AT];
        bytes[0..3].copy_from_slice(SCRIPT_MARK);
        bytes[4..6].copy_from_slice(&VERSION.to_le_bytes());
        for node in &self.nodes {
            bytes.extend_from_slice(&node.encode());
        }
        bytes
    }

    pub fn node(&self, name: NodeName) -> &Node {
        &self.nodes[name.index()]
    }

    pub fn set(&mut self, name: NodeName, node: Node) {
        self.nodes[name.index()] = node;
    }
}
