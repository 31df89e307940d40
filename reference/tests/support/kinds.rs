//! The kinds of acceptance and refusal that the streams count.

use super::checked::Command;
use super::sound::{views, View};
use super::trace::Trace;
use super::POLYGON_LIMIT;
use reference::tree::Limit::{AfterCommonParts, AfterCut, Refined};
use reference::tree::{Node, Refusal, Tree};

/// The kinds of an accepted insertion.
pub fn accepted_kinds(before: &Tree, after: &Tree, trace: &Trace) -> Vec<&'static str> {
    let leaves = |tree: &Tree| {
        let views = views(tree);
        let leaf = |v: &&View| matches!(v.node, Node::Leaf(_));
        views.iter().filter(leaf).count()
    };
    let routing = |tree: &Tree| views(tree).len() - leaves(tree);
    let new_leaves = leaves(after) - leaves(before);
    let new_levels = after.height() - before.height();
    let new_routing = routing(after) - routing(before);
    let mut kinds = vec![match trace.sizes.levels {
        0 => "I accepted, no branch grown",
        1 => "I accepted, a branch grown at one level",
        _ => "I accepted, branches grown at two or more levels",
    }];
    let removing = trace.removed.iter().filter(|&&cells| cells > 0);
    match removing.count() {
        0 => {}
        1 => kinds.push("I accepted, cells removed at one level"),
        _ => kinds.push("I accepted, cells removed at two or more levels"),
    }
    if new_leaves > 0 {
        kinds.push("I accepted, leaf split");
    }
    if new_leaves > 1 {
        kinds.push("I accepted, branches split recursively");
    }
    if new_levels > 0 {
        kinds.push("I accepted, new root");
    }
    if new_routing > new_levels {
        kinds.push("I accepted, routing node split");
    }
    if trace.sizes.refined == POLYGON_LIMIT {
        kinds.push("I accepted, refined polygon of 16");
    }
    kinds
}

pub fn refused_kind(command: Command, refusal: Refusal) -> &'static str {
    match (command, refusal) {
        (Command::Insert(..), Refusal::Invalid) => "I refused 3",
        (Command::Insert(..), Refusal::Held) => "I refused 5",
        (Command::Insert(..), Refusal::OverLimit(AfterCut)) => "I refused 7 after a cut",
        (Command::Insert(..), Refusal::OverLimit(AfterCommonParts)) => {
            "I refused 7 after the common parts"
        }
        (Command::Insert(..), Refusal::OverLimit(Refined)) => "I refused 7, refined polygon",
        (Command::Insert(..), Refusal::TooManyNodes) => "I refused 8",
        (Command::Remove(_), Refusal::Invalid) => "R refused 3",
        (Command::Remove(_), Refusal::NotHeld) => "R refused 6",
        (Command::Point(_), Refusal::Invalid) => "P refused 3",
        (Command::Window(..), Refusal::Invalid) => "S refused 3",
        (Command::Window(..), Refusal::ShortList { .. }) => "S refused 9",
        _ => panic!("{command:?} cannot refuse with {refusal:?}"),
    }
}
