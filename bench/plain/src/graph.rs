//! The tree of a plan, its loop rows and cut rows (docs/TREES.md).

use crate::refusal::{Refusal, Shown};
use crate::sheet::{Branch, Kind, Plan, NODES, PLACES};
use crate::words::{has, Members};

const ORDER: [Kind; 5] = [
    Kind::VoltageSource,
    Kind::Capacitor,
    Kind::Resistor,
    Kind::Inductor,
    Kind::CurrentSource,
];

/// The nodes that some branches join each node with, as a word of nodes.
struct Pieces([u16; NODES]);

impl Pieces {
    fn single() -> Pieces {
        Pieces(std::array::from_fn(|node| 1 << node))
    }

    fn are_joined(&self, branch: Branch) -> bool {
        has(self.0[branch.tail as usize].into(), branch.head as usize)
    }

    fn join(&mut self, branch: Branch) {
        let piece = self.0[branch.tail as usize] | self.0[branch.head as usize];
        for node in Members(piece.into()) {
            self.0[node] = piece;
        }
    }
}

/// The branches of a word with their places, ascending.
fn branches_of(plan: &Plan, word: u32) -> impl Iterator<Item = (usize, Branch)> + '_ {
    Members(word).filter_map(|k| plan.branches[k].map(|branch| (k, branch)))
}

/// The tree's word. Refused by 12 and 13.
pub fn tree(plan: &Plan) -> Result<u32, Refusal> {
    let mut pieces = Pieces::single();
    let mut kept = 0;
    for wanted in ORDER {
        for (k, branch) in branches_of(plan, plan.word_where(|kind| kind == wanted)) {
            if !pieces.are_joined(branch) {
                pieces.join(branch);
                kept |= 1 << k;
            }
        }
    }
    let voltages = plan.word_where(|kind| kind == Kind::VoltageSource);
    if let Some((k, branch)) = branches_of(plan, voltages & !kept).next() {
        let forest = Forest::of(plan, kept & voltages);
        return Err(Refusal::VoltageLoop(forest.loop_along(k, branch)));
    }
    let currents = plan.word_where(|kind| kind == Kind::CurrentSource);
    if let Some((_, branch)) = branches_of(plan, kept & currents).next() {
        let mut pieces = Pieces::single();
        for (_, branch) in branches_of(plan, !currents) {
            pieces.join(branch);
        }
        return Err(Refusal::CurrentCut(cut_of(
            plan,
            pieces.0[branch.tail as usize],
        )));
    }
    Ok(kept)
}

/// The branches that leave or enter some nodes.
fn cut_of(plan: &Plan, nodes: u16) -> Shown {
    let mut cut = Shown::default();
    for (k, branch) in branches_of(plan, !0) {
        let leaves = has(nodes.into(), branch.tail as usize);
        let stays = has(nodes.into(), branch.head as usize);
        if leaves != stays {
            cut.members |= 1 << k;
            cut.against |= u32::from(stays) << k;
        }
    }
    cut
}

/// The way from each node to the root of its piece, over branches without a loop: the branches passed, and those of
/// them passed from head to tail.
struct Forest {
    ways: [Shown; NODES],
}

impl Forest {
    fn of(plan: &Plan, word: u32) -> Forest {
        let mut around = [0u32; NODES];
        for (k, branch) in branches_of(plan, word) {
            around[branch.tail as usize] |= 1 << k;
            around[branch.head as usize] |= 1 << k;
        }
        let mut ways = [Shown::default(); NODES];
        let mut left = !0u16;
        let mut waiting = [0u8; NODES];
        while left != 0 {
            let root = left.trailing_zeros();
            left &= left - 1;
            waiting[0] = root as u8;
            let mut depth = 1;
            while depth > 0 {
                depth -= 1;
                let at = waiting[depth];
                let way = ways[at as usize];
                for (k, branch) in branches_of(plan, around[at as usize] & !way.members) {
                    let from = branch.tail ^ branch.head ^ at;
                    ways[from as usize] = Shown {
                        members: way.members | 1 << k,
                        against: way.against | u32::from(from == branch.head) << k,
                    };
                    left &= !(1 << from);
                    waiting[depth] = from;
                    depth += 1;
                }
            }
        }
        Forest { ways }
    }

    /// The loop along a branch and back over the forest: up from its head, down to its tail.
    fn loop_along(&self, k: usize, branch: Branch) -> Shown {
        let up = self.ways[branch.head as usize];
        let down = self.ways[branch.tail as usize];
        let against = up.members & up.against | down.members & !down.against;
        let back = up.members ^ down.members;
        Shown {
            members: back | 1 << k,
            against: against & back,
        }
    }
}

/// A plan's tree with the rows of all its branches: the loop row of each link, the cut row of each tree branch.
pub struct Network {
    pub tree: u32,
    pub links: u32,
    pub rows: [Shown; PLACES],
}

impl Network {
    pub fn of(plan: &Plan) -> Result<Network, Refusal> {
        let tree = tree(plan)?;
        let links = plan.word_where(|_| true) & !tree;
        let forest = Forest::of(plan, tree);
        let mut rows = [Shown::default(); PLACES];
        for t in Members(tree) {
            rows[t].members = 1 << t;
        }
        for (k, branch) in branches_of(plan, links) {
            let row = forest.loop_along(k, branch);
            rows[k] = row;
            // A link is in the cuts of the tree branches in its loop, with the other sign.
            for t in Members(row.members & tree) {
                rows[t].members |= 1 << k;
                rows[t].against |= u32::from(!has(row.against, t)) << k;
            }
        }
        Ok(Network { tree, links, rows })
    }
}
