//! The script's form (document 01, "Script, 2,064 bytes"), rule by rule on
//! the raw bytes. Every rule speaks only of what its own sentence says, so an
//! image can break one of them alone.

use crate::fault::{seeded, Fault};
use crate::names::NONE;

pub const SCRIPT_LENGTH: usize = 2064;
pub const SCRIPT_MARK: &[u8; 3] = b"RTS";
pub const VERSION: u16 = 1;
pub const NODES_AT: usize = 16;
pub const NODE_LENGTH: usize = 32;
pub const NODE_COUNT: usize = 64;

/// Offsets within a node.
pub mod node_byte {
    pub const KIND: usize = 0;
    pub const NEXT: usize = 1;
    pub const OTHER: usize = 2;
    pub const TARGET_TAG: usize = 3;
    pub const TARGET: usize = 4;
    pub const REFERENCE: usize = 5;
    pub const FIELD_COUNT: usize = 6;
    pub const FIELD_TAGS: usize = 8;
    pub const FIELD_NUMBERS: usize = 12;
}

/// Target and field tags.
pub mod tag {
    pub const VALUE: u8 = 1;
    pub const LITERAL: u8 = 2;
    pub const VARIABLE: u8 = 3;
    pub const FORMAL_VALUE: u8 = 4;
    pub const FORMAL_LOCALITY: u8 = 5;
}

/// "Kinds: 0 nil, 1 out, 2 in, 3 read, 4 newloc, 5 eval, 6 split, 7 roll."
#[derive(Clone, Copy, PartialEq, Eq, PartialOrd, Ord, Hash, Debug)]
pub enum Kind {
    Nil = 0,
    Out = 1,
    In = 2,
    Read = 3,
    Newloc = 4,
    Eval = 5,
    Split = 6,
    Roll = 7,
}

impl Kind {
    pub const ALL: [Kind; 8] = [
        Kind::Nil,
        Kind::Out,
        Kind::In,
        Kind::Read,
        Kind::Newloc,
        Kind::Eval,
        Kind::Split,
        Kind::Roll,
    ];

    pub fn from_byte(byte: u8) -> Option<Kind> {
        Kind::ALL.get(usize::from(byte)).copied()
    }

    pub fn word(self) -> &'static str {
        [
            "nil", "out", "in", "read", "newloc", "eval", "split", "roll",
        ][self as usize]
    }

    pub fn uses(self) -> Row {
        TABLE[self as usize]
    }
}

/// How a kind uses the target.
#[derive(Clone, Copy, PartialEq, Eq, Debug)]
pub enum TargetUse {
    Unused,
    /// A literal locality or a variable, looked up.
    Named,
    /// A variable that is bound.
    Bound,
}

/// How a kind uses byte 5.
#[derive(Clone, Copy, PartialEq, Eq, Debug)]
pub enum ReferenceUse {
    Unused,
    /// A reference, or 255.
    Optional,
    /// "roll: byte 5, in 0..3."
    Needed,
}

/// How a kind uses the fields.
#[derive(Clone, Copy, PartialEq, Eq, Debug)]
pub enum FieldUse {
    Unused,
    /// Tags 1 to 3.
    Actual,
    /// Tags 1 to 5.
    Template,
}

/// Which places a kind uses.
#[derive(Clone, Copy, PartialEq, Eq, Debug)]
pub struct Row {
    pub next: bool,
    pub other: bool,
    pub target: TargetUse,
    pub reference: ReferenceUse,
    pub fields: FieldUse,
}

const fn row(
    next: bool,
    other: bool,
    target: TargetUse,
    reference: ReferenceUse,
    fields: FieldUse,
) -> Row {
    Row {
        next,
        other,
        target,
        reference,
        fields,
    }
}

/// "A table of eight rows says which places each kind uses."
pub const TABLE: [Row; 8] = {
    use FieldUse as F;
    use ReferenceUse as R;
    use TargetUse as T;
    [
        row(false, false, T::Unused, R::Unused, F::Unused), // nil
        row(true, false, T::Named, R::Optional, F::Actual), // out
        row(true, false, T::Named, R::Optional, F::Template), // in
        row(true, false, T::Named, R::Optional, F::Template), // read
        row(true, false, T::Bound, R::Optional, F::Unused), // newloc
        row(true, true, T::Named, R::Optional, F::Unused),  // eval
        row(true, true, T::Unused, R::Unused, F::Unused),   // split
        row(false, false, T::Unused, R::Needed, F::Unused), // roll
    ]
};

/// The rules of the form, in the order in which they are looked at.
#[derive(Clone, Copy, PartialEq, Eq, PartialOrd, Ord, Hash, Debug)]
pub enum ScriptRule {
    Length,
    Mark,
    Version,
    HeaderZero,
    NodeKind,
    NodeZero,
    Next,
    Other,
    TargetTag,
    Target,
    Reference,
    UnusedPlaceZero,
    UnusedReferenceNone,
    FieldCount,
    FieldTag,
    FieldNumber,
    FormalsDistinct,
    FieldsPastCountZero,
}

impl ScriptRule {
    pub const ALL: [ScriptRule; 18] = [
        ScriptRule::Length,
        ScriptRule::Mark,
        ScriptRule::Version,
        ScriptRule::HeaderZero,
        ScriptRule::NodeKind,
        ScriptRule::NodeZero,
        ScriptRule::Next,
        ScriptRule::Other,
        ScriptRule::TargetTag,
        ScriptRule::Target,
        ScriptRule::Reference,
        ScriptRule::UnusedPlaceZero,
        ScriptRule::UnusedReferenceNone,
        ScriptRule::FieldCount,
        ScriptRule::FieldTag,
        ScriptRule::FieldNumber,
        ScriptRule::FormalsDistinct,
        ScriptRule::FieldsPastCountZero,
    ];

    /// The rule as a sentence.
    pub fn sentence(self) -> &'static str {
        match self {
            ScriptRule::Length => "a script has 2064 bytes",
            ScriptRule::Mark => "bytes 0..2 are \"RTS\"",
            ScriptRule::Version => "version 1 at 4..5",
            ScriptRule::HeaderZero => "bytes 3 and 6..15 are 0",
            ScriptRule::NodeKind => "a node's kind is 0..7",
            ScriptRule::NodeZero => "a node's bytes 7 and 28..31 are 0",
            ScriptRule::Next => "next is a node",
            ScriptRule::Other => "the other node is a node",
            ScriptRule::TargetTag => {
                "the target is a literal locality or a variable, newloc's a variable"
            }
            ScriptRule::Target => "a target is in 0..7",
            ScriptRule::Reference => "the reference is 0..3, or 255 except in roll",
            ScriptRule::UnusedPlaceZero => "a place not used is 0",
            ScriptRule::UnusedReferenceNone => "byte 5 not used is 255",
            ScriptRule::FieldCount => "out, in and read have 1..4 fields",
            ScriptRule::FieldTag => "field tags are 1..3, in in and read 1..5",
            ScriptRule::FieldNumber => "a field's literal locality or variable is 0..7",
            ScriptRule::FormalsDistinct => "formals of one template name distinct variables",
            ScriptRule::FieldsPastCountZero => "fields past the count are 0",
        }
    }

    /// Where the rule is broken first: `Some(None)` in the header,
    /// `Some(Some(n))` in node n.
    fn broken_at(self, script: &[u8]) -> Option<Option<usize>> {
        if !self.header_holds(script) {
            return Some(None);
        }
        if script.len() != SCRIPT_LENGTH {
            return None;
        }
        (0..NODE_COUNT)
            .find(|&n| !self.node_holds(node_bytes(script, n)))
            .map(Some)
    }

    fn header_holds(self, script: &[u8]) -> bool {
        if self == ScriptRule::Length {
            return script.len() == SCRIPT_LENGTH;
        }
        if script.len() < NODES_AT {
            return true;
        }
        match self {
            ScriptRule::Mark => script[0..3] == *SCRIPT_MARK,
            ScriptRule::Version => script[4..6] == VERSION.to_le_bytes(),
            ScriptRule::HeaderZero => script[3] == 0 && all_zero(&script[6..16]),
            _ => true,
        }
    }

    fn node_holds(self, node: &[u8]) -> bool {
        let Some(kind) = Kind::from_byte(node[node_byte::KIND]) else {
            return self != ScriptRule::NodeKind;
        };
        let uses = kind.uses();
        match self {
            ScriptRule::NodeZero => node[7] == 0 && all_zero(&node[28..32]),
            ScriptRule::Next => !uses.next || is_node(node[node_byte::NEXT]),
            ScriptRule::Other => !uses.other || is_node(node[node_byte::OTHER]),
            ScriptRule::TargetTag => target_tag_holds(uses.target, node),
            ScriptRule::Target => uses.target == TargetUse::Unused || node[node_byte::TARGET] < 8,
            ScriptRule::Reference => reference_holds(uses.reference, node[node_byte::REFERENCE]),
            ScriptRule::UnusedPlaceZero => unused_places_zero(uses, node),
            ScriptRule::UnusedReferenceNone => {
                uses.reference != ReferenceUse::Unused || node[node_byte::REFERENCE] == NONE
            }
            _ => uses.fields == FieldUse::Unused || self.fields_hold(uses.fields, node),
        }
    }

    fn fields_hold(self, uses: FieldUse, node: &[u8]) -> bool {
        let count = usize::from(node[node_byte::FIELD_COUNT]);
        if !(1..=4).contains(&count) {
            return self != ScriptRule::FieldCount;
        }
        let fields: [(u8, u32); 4] = std::array::from_fn(|i| field_bytes(node, i));
        let (used, past) = fields.split_at(count);
        match self {
            ScriptRule::FieldTag => used.iter().all(|&(tag, _)| field_tag_holds(uses, tag)),
            ScriptRule::FieldNumber => used
                .iter()
                .all(|&(tag, number)| tag == tag::VALUE || number < 8),
            ScriptRule::FormalsDistinct => formals_distinct(used),
            ScriptRule::FieldsPastCountZero => past.iter().all(|&field| field == (0, 0)),
            _ => true,
        }
    }
}

/// A broken rule, and the node where it is broken first.
#[derive(Clone, Copy, PartialEq, Eq, Debug)]
pub struct BrokenScript {
    pub rule: ScriptRule,
    pub node: Option<usize>,
}

/// Every rule of the form that the bytes break, first things first.
pub fn broken_script_rules(script: &[u8]) -> Vec<BrokenScript> {
    ScriptRule::ALL
        .into_iter()
        .filter_map(|rule| check(script, rule))
        .collect()
}

/// The first rule of the form that the bytes break.
pub fn first_broken_script_rule(script: &[u8]) -> Option<BrokenScript> {
    ScriptRule::ALL
        .into_iter()
        .find_map(|rule| check(script, rule))
}

fn check(script: &[u8], rule: ScriptRule) -> Option<BrokenScript> {
    if seeded(Fault::ScriptRuleLeftOut(rule)) {
        return None;
    }
    rule.broken_at(script)
        .map(|node| BrokenScript { rule, node })
}

fn node_bytes(script: &[u8], n: usize) -> &[u8] {
    let start = NODES_AT + n * NODE_LENGTH;
    &script[start..start + NODE_LENGTH]
}

pub fn field_bytes(node: &[u8], i: usize) -> (u8, u32) {
    let at = node_byte::FIELD_NUMBERS + 4 * i;
    (node[node_byte::FIELD_TAGS + i], number_at(node, at))
}

/// A 32-bit number, little-endian.
pub fn number_at(bytes: &[u8], at: usize) -> u32 {
    u32::from_le_bytes([bytes[at], bytes[at + 1], bytes[at + 2], bytes[at + 3]])
}

pub fn all_zero(bytes: &[u8]) -> bool {
    bytes.iter().all(|&byte| byte == 0)
}

fn is_node(byte: u8) -> bool {
    usize::from(byte) < NODE_COUNT
}

fn target_tag_holds(uses: TargetUse, node: &[u8]) -> bool {
    let target_tag = node[node_byte::TARGET_TAG];
    match uses {
        TargetUse::Unused => true,
        TargetUse::Named => target_tag == tag::LITERAL || target_tag == tag::VARIABLE,
        TargetUse::Bound => target_tag == tag::VARIABLE,
    }
}

fn reference_holds(uses: ReferenceUse, byte: u8) -> bool {
    match uses {
        ReferenceUse::Unused => true,
        ReferenceUse::Optional => byte < 4 || byte == NONE,
        ReferenceUse::Needed => byte < 4,
    }
}

fn unused_places_zero(uses: Row, node: &[u8]) -> bool {
    let next = uses.next || node[node_byte::NEXT] == 0;
    let other = uses.other || node[node_byte::OTHER] == 0;
    let target = uses.target != TargetUse::Unused
        || node[node_byte::TARGET_TAG] == 0 && node[node_byte::TARGET] == 0;
    let fields = uses.fields != FieldUse::Unused
        || node[node_byte::FIELD_COUNT] == 0 && all_zero(&node[8..28]);
    next && other && target && fields
}

fn field_tag_holds(uses: FieldUse, tag: u8) -> bool {
    match uses {
        FieldUse::Unused => true,
        FieldUse::Actual => (tag::VALUE..=tag::VARIABLE).contains(&tag),
        FieldUse::Template => (tag::VALUE..=tag::FORMAL_LOCALITY).contains(&tag),
    }
}

/// Across both sorts of formals together (READINGS, "formals distinct").
fn formals_distinct(fields: &[(u8, u32)]) -> bool {
    let formals: Vec<u32> = fields
        .iter()
        .filter(|&&(tag, _)| tag == tag::FORMAL_VALUE || tag == tag::FORMAL_LOCALITY)
        .map(|&(_, number)| number)
        .collect();
    (1..formals.len()).all(|i| !formals[..i].contains(&formals[i]))
}
