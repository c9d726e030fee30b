//! Forged tables: a diagram with one fault in its nodes or in a pair, but laid out, chained and paired as it should be,
//! so that nothing but the fault can give it away. Some faults leave a sound table, and then every answer is that of its
//! rules or costs.

use crate::desk::{Desk, OnDesk};
use crate::kind::{Branch, Kind, Number, To, MOST_ADDED, MOST_COST};
use crate::pairs::{self, Hold};
use crate::parts::poked;
use crate::picture::{self, Diagram, Node};
use crate::rng::Rng;
use crate::scope::Scope;
use crate::script;
use crate::shape::Shape;

const CAPACITY: usize = 14;
/// Forged tables in a script, so that it stays within what `shelf` reads.
const IN_A_SCRIPT: usize = 32;
const LISTS: [&[usize]; 5] = [&[2, 3], &[2, 2, 2], &[3, 2, 2], &[8], &[2, 2, 3, 2]];

/// What a branch of a forged cost adds: within ±2,000,000,000 and just outside.
fn added(rng: &mut Rng) -> i64 {
    let sign = rng.pick(&[1, -1]);
    sign * rng.pick(&[0, 0, 1, 5, MOST_COST, MOST_ADDED - 1, MOST_ADDED, MOST_ADDED + 1, i64::from(i32::MAX)])
}

/// A branch to the end, or to any node of the first n, one too many with them.
pub fn branch(rng: &mut Rng, kind: Kind, n: usize) -> Branch {
    let end = match kind {
        Kind::Rules => (rng.below(3) as u16).end(),
        Kind::Costs => added(rng).end(),
    };
    if rng.once_in(2) {
        return end;
    }
    Branch { adds: end.adds, to: To::Node(rng.below(n + 1)) }
}

/// A node with any branches; the first of a cost most often adds 0, as it should.
fn node(rng: &mut Rng, kind: Kind, shape: &Shape, n: usize) -> Node {
    let feature = rng.below(shape.features());
    let mut branches: Vec<Branch> = (0..shape.sizes[feature]).map(|_| branch(rng, kind, n)).collect();
    if !rng.once_in(8) {
        branches[0].adds = 0;
    }
    Node { feature, branches }
}

/// One more node at the end, met last by the walk as the root of the last place; a cost has any base there.
fn add(rng: &mut Rng, kind: Kind, diagram: &mut Diagram, node: Node) {
    let base = if kind == Kind::Rules { 0 } else { rng.pick(&[0, 0, 5, MOST_COST, -MOST_COST]) };
    diagram.roots[kind.places() - 1] = Branch { adds: base, to: To::Node(diagram.nodes.len()) };
    diagram.nodes.push(node);
}

/// Two nodes side by side change their numbers.
pub fn swap(diagram: &mut Diagram, i: usize) {
    diagram.nodes.swap(i, i + 1);
    for target in diagram.targets().filter(|t| (i..=i + 1).contains(*t)) {
        *target = 2 * i + 1 - *target;
    }
}

/// One fault in node i of the diagram.
fn fault_in(rng: &mut Rng, kind: Kind, shape: &Shape, diagram: &mut Diagram, i: usize) {
    let n = diagram.nodes.len();
    let v = rng.below(diagram.nodes[i].branches.len());
    match rng.below(5) {
        0 => {
            let twin = diagram.nodes[i].clone();
            add(rng, kind, diagram, twin);
        }
        1 if n > 1 => swap(diagram, rng.below(n - 1)),
        2 => diagram.nodes[i].feature = rng.below(shape.features() + 1),
        3 if kind == Kind::Costs => diagram.nodes[i].branches[v].adds = added(rng),
        _ => diagram.nodes[i].branches[v] = branch(rng, kind, n),
    }
}

/// A node that is there in vain, a root that leads elsewhere, or no fault.
fn fault_around<N: Number>(rng: &mut Rng, shape: &Shape, diagram: &mut Diagram) {
    let n = diagram.nodes.len();
    let mut more = node(rng, N::KIND, shape, n);
    match rng.below(5) {
        0 => {
            let first = more.branches[0];
            more.branches.fill(first);
            add(rng, N::KIND, diagram, more);
        }
        1 => add(rng, N::KIND, diagram, more),
        2 => {
            let ends = (0..more.branches.len()).filter_map(|v| N::of(v as i64));
            more.branches = ends.map(N::end).collect();
            diagram.nodes.push(more);
        }
        3 => diagram.roots[rng.below(N::KIND.places())] = branch(rng, N::KIND, n),
        _ => {}
    }
}

/// The base of a place up or down to where its cost just stays in range, or just leaves it.
fn move_base(rng: &mut Rng, shape: &Shape, diagram: &mut Diagram) {
    let p = rng.below(diagram.roots.len());
    let past = rng.below(2) as i64;
    let cost = diagram.functions::<i64>(shape).map_or(vec![0], |mut costs| costs.swap_remove(p));
    let low = cost.iter().copied().fold(MOST_COST, i64::min);
    let high = cost.iter().copied().fold(-MOST_COST, i64::max);
    diagram.roots[p].adds += if rng.once_in(2) { MOST_COST - high + past } else { -MOST_COST - low - past };
}

/// The words of a forged table.
fn forged<N: OnDesk>(rng: &mut Rng, shape: &Shape) -> Vec<u32> {
    let room = rng.within(1, CAPACITY - 1);
    let mut diagram = picture::diagram(shape, &script::table::<N>(rng.next(), shape, room).places);
    // the last place keeps its root for nodes to come
    let last = N::KIND.places() - 1;
    if let To::End(_) = diagram.roots[last].to {
        diagram.roots[last] = Branch { adds: 0, to: To::End(0) };
    }
    let n = diagram.nodes.len();
    if n > 0 && rng.once_in(5) {
        let pairs = pairs::faulty(rng, N::KIND, shape, &mut diagram);
        return picture::lay_out::<N>(shape, CAPACITY, &diagram, &pairs);
    }
    match rng.below(5) {
        0 if N::KIND == Kind::Costs => move_base(rng, shape, &mut diagram),
        1..=2 if n > 0 => {
            let i = rng.below(n);
            fault_in(rng, N::KIND, shape, &mut diagram, i);
        }
        _ => fault_around::<N>(rng, shape, &mut diagram),
    }
    let pairs = pairs::right(N::KIND, shape, &diagram, pairs::wrapped);
    picture::lay_out::<N>(shape, CAPACITY, &diagram, &pairs)
}

/// Calls that must find the fault, or tell the numbers of a sound table and leave it sound.
fn calls(rng: &mut Rng, kind: Kind, shape: &Shape) -> Vec<String> {
    let last = kind.places() - 1;
    let mut lines = vec!["tally".to_string(), format!("same {last} 0")];
    for p in [0, last, last / 3, last - 6] {
        let setting = shape.setting(rng.below(shape.settings()));
        let values: Vec<String> = setting.iter().map(|v| v.to_string()).collect();
        lines.push(format!("look {p} {}", values.join(" ")));
    }
    lines.push(format!("copy {} {last}", rng.below(kind.places())));
    lines.push(format!("constant {last} 7"));
    lines.push("tally".to_string());
    lines.push("sum".to_string());
    lines.iter().map(|line| kind.command(line)).collect()
}

fn script_of<N: OnDesk>(seed: u64) -> Vec<String> {
    let mut rng = Rng::new(seed);
    let mut desk = Desk::new();
    let mut script = Vec::new();
    for _ in 0..IN_A_SCRIPT {
        let shape = Shape { sizes: rng.pick(&LISTS).to_vec() };
        let words = forged::<N>(&mut rng, &shape);
        script.append(&mut poked(&mut desk, N::KIND, &shape, &words));
        script.append(&mut calls(&mut rng, N::KIND, &shape));
    }
    script
}

/// A diagram over sixteen features of size 2, each root in the place of its index.
fn sixteen<N: Number>(nodes: Vec<Node>, mut roots: Vec<Branch>, hold: Hold) -> Vec<String> {
    let shape = Shape { sizes: vec![2; 16] };
    roots.resize(N::KIND.places(), Branch { adds: 0, to: To::End(0) });
    let diagram = Diagram { nodes, roots };
    let pairs = pairs::right(N::KIND, &shape, &diagram, hold);
    let words = picture::lay_out::<N>(&shape, 2 * CAPACITY, &diagram, &pairs);
    let mut script = poked(&mut Desk::new(), N::KIND, &shape, &words);
    script.push(N::KIND.command("tally"));
    script
}

/// Sixteen features and a node of a seventeenth, whose size would be the word after the sizes: the nodes in use.
fn seventeenth<N: Number>() -> Vec<String> {
    let ends: Vec<Branch> = (0..2).filter_map(N::of).map(N::end).collect();
    let leaf = |feature| Node { feature, branches: ends.clone() };
    let to = |i| Branch { adds: 0, to: To::Node(i) };
    sixteen::<N>(vec![leaf(15), leaf(16)], vec![to(0), to(1)], pairs::wrapped)
}

/// A chain of nodes over all sixteen features whose branches add so much in turn. Most sums leave their range; pairs
/// that hold them wrapped around or stopped at the most would be in range, some of them.
fn steep(adds: [i64; 2], base: i64, hold: Hold) -> Vec<String> {
    let below = |i: usize| if i == 0 { To::End(0) } else { To::Node(i - 1) };
    let node = |i: usize| {
        let branch = |adds| Branch { adds, to: below(i) };
        Node { feature: 15 - i, branches: vec![branch(0), branch(adds[i % 2])] }
    };
    sixteen::<i64>((0..16).map(node).collect(), vec![Branch { adds: base, to: To::Node(15) }], hold)
}

/// Chains whose sums leave 32 bits, leave the range within 32 bits, and just stay in range, above 0 and below.
fn steep_scripts() -> Vec<Vec<String>> {
    let mut scripts = Vec::new();
    for hold in [pairs::wrapped as Hold, pairs::stopped] {
        for sign in [1, -1] {
            for most in [MOST_ADDED, MOST_COST, 1 << 28, MOST_ADDED / 16 + 1] {
                scripts.push(steep([sign * most; 2], -sign * MOST_COST, hold));
            }
            scripts.push(steep([sign * MOST_ADDED; 2], 0, hold));
        }
        scripts.push(steep([MOST_COST, -MOST_COST], 0, hold));
    }
    for sign in [1, -1] {
        scripts.push(steep([sign * MOST_ADDED / 16; 2], -sign * MOST_COST, pairs::wrapped));
        scripts.push(steep([1, -1], sign * MOST_COST, pairs::wrapped));
        scripts.push(steep([1, -1], sign * (MOST_COST - 8), pairs::wrapped));
    }
    scripts
}

/// A cost that reaches from -2,000,000,000 to 2,000,000,000 around a base far outside the range: both ends wrapped
/// around would be in range.
fn far_base(base: i64) -> Vec<String> {
    let node = |feature, adds, to| Node { feature, branches: vec![Branch { adds: 0, to }, Branch { adds, to }] };
    let nodes = vec![node(15, MOST_ADDED, To::End(0)), node(0, -MOST_ADDED, To::Node(0))];
    sixteen::<i64>(nodes, vec![Branch { adds: base, to: To::Node(1) }], pairs::wrapped)
}

/// A table of one kind in the buffer of the other: as it is, and under the other's number.
fn strangers() -> Vec<String> {
    let shape = Shape { sizes: vec![2, 3] };
    let rules = picture::words(&script::table::<u16>(1, &shape, CAPACITY));
    let costs = picture::words(&script::table::<i64>(1, &shape, CAPACITY));
    let mut desk = Desk::new();
    let mut script = Vec::new();
    for (kind, words) in [(Kind::Rules, costs), (Kind::Costs, rules)] {
        script.append(&mut poked(&mut desk, kind, &shape, &words));
        script.push(kind.command("tally"));
        script.push(format!("{} 0 {}", kind.command("poke"), kind.word()));
        script.push(kind.command("tally"));
    }
    script
}

/// So many scripts of forged tables of each kind.
pub fn scripts(seed: u64, count: u64, scope: Scope) -> Vec<Vec<String>> {
    let mut scripts: Vec<Vec<String>> = (seed..seed + count).map(script_of::<u16>).collect();
    scripts.push(seventeenth::<u16>());
    if scope != Scope::Rules {
        scripts.extend((seed..seed + count).map(script_of::<i64>));
        scripts.extend([seventeenth::<i64>(), strangers()]);
        scripts.extend(steep_scripts());
        scripts.extend([i64::from(i32::MAX), i64::from(i32::MIN), MOST_ADDED, -MOST_ADDED].map(far_base));
    }
    scripts
}

#[cfg(test)]
mod tests {
    use super::*;
    use crate::shelf::MOST_BYTES;
    use crate::sound;

    #[test]
    fn no_script_is_longer_than_shelf_reads() {
        for script in scripts(1000, 6, Scope::All) {
            let bytes: usize = script.iter().map(|line| line.len() + 1).sum();
            assert!(bytes <= MOST_BYTES, "{bytes}");
        }
    }

    fn sound_ones<N: OnDesk>() -> usize {
        let mut rng = Rng::new(1);
        let mut is_sound = || {
            let shape = Shape { sizes: rng.pick(&LISTS).to_vec() };
            sound::read::<N>(&forged::<N>(&mut rng, &shape)).is_some()
        };
        (0..200).filter(|_| is_sound()).count()
    }

    #[test]
    fn some_forged_tables_are_sound() {
        let found = [sound_ones::<u16>(), sound_ones::<i64>()];
        assert!(found.iter().all(|n| (20..120).contains(n)), "{found:?}");
    }

    /// Whether the table that a script pokes is found sound at its end.
    fn ends_sound(script: &[String]) -> bool {
        let mut desk = Desk::new();
        script.iter().for_each(|line| {
            desk.answer(line);
        });
        desk.is_sound(Kind::Costs)
    }

    #[test]
    fn chains_at_and_past_the_end_of_the_range() {
        for sign in [1, -1] {
            assert!(ends_sound(&steep([sign * MOST_ADDED / 16; 2], -sign * MOST_COST, pairs::wrapped)));
            assert!(!ends_sound(&steep([sign * (MOST_ADDED / 16 + 1); 2], -sign * MOST_COST, pairs::wrapped)));
            assert!(ends_sound(&steep([1, -1], sign * (MOST_COST - 8), pairs::wrapped)));
            assert!(!ends_sound(&steep([1, -1], sign * (MOST_COST - 7), pairs::wrapped)));
            assert!(!ends_sound(&far_base(sign * MOST_ADDED)));
        }
    }
}
