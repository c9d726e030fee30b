//! Rule sheets, edition 1: the bytes of a rule from the table of all its numbers, and which bytes are such a sheet.

use crate::kind::{Branch, Number, To};
use crate::model::{Rule, Told, BAD_SHEET, NEWER};
use crate::picture::{self, Diagram, Node};
use crate::shape::Shape;

/// The most rests that a sheet's rule may have.
const MOST_RESTS: usize = 4096;
/// The most settings of a list that the model can store.
pub const MOST_SETTINGS: usize = 1 << 22;

fn two(n: usize) -> [u8; 2] {
    [(n >> 8) as u8, n as u8]
}

fn three(branch: &Branch) -> [u8; 3] {
    let (kind, number) = match branch.to {
        To::End(x) => (0, usize::from(x)),
        To::Node(i) => (1, i),
    };
    [kind, (number >> 8) as u8, number as u8]
}

/// The sections of a diagram as it is, good or not.
pub fn lay_out(shape: &Shape, diagram: &Diagram) -> Vec<u8> {
    let mut bytes = vec![0, 1, 1];
    bytes.extend(two(shape.features()));
    bytes.extend(shape.sizes.iter().map(|&s| s as u8));
    bytes.extend(two(diagram.nodes.len()));
    for node in &diagram.nodes {
        bytes.push(node.feature as u8);
        bytes.extend(node.branches.iter().flat_map(three));
    }
    bytes.extend(two(diagram.roots.len()));
    bytes.extend(diagram.roots.iter().flat_map(three));
    bytes
}

/// The sheet of a rule.
pub fn written(shape: &Shape, rule: &Rule) -> Vec<u8> {
    lay_out(shape, &picture::diagram(shape, std::slice::from_ref(rule)))
}

/// The bytes that are left.
struct Bytes<'a> {
    left: &'a [u8],
}

impl Bytes<'_> {
    fn byte(&mut self) -> Option<usize> {
        let (&first, left) = self.left.split_first()?;
        self.left = left;
        Some(usize::from(first))
    }

    fn two(&mut self) -> Option<usize> {
        Some(self.byte()? * 256 + self.byte()?)
    }

    fn shape(&mut self) -> Option<Shape> {
        let count = self.two()?;
        let sizes = (0..count).map(|_| self.byte().map(|s| s as i64)).collect::<Option<Vec<i64>>>()?;
        Shape::of(&sizes)
    }

    /// A phrase, or one of the nodes so far, of feature k or higher: other branches have no number.
    fn branch(&mut self, nodes: &[Node], k: usize) -> Option<Branch> {
        let kind = self.byte()?;
        let number = self.two()?;
        match kind {
            0 => Some((number as u16).end()),
            1 if nodes.get(number)?.feature >= k => Some(Branch { adds: 0, to: To::Node(number) }),
            _ => None,
        }
    }

    fn diagram(&mut self, shape: &Shape) -> Option<Diagram> {
        let count = self.two()?;
        let mut nodes: Vec<Node> = Vec::new();
        for _ in 0..count {
            let feature = self.byte()?;
            let size = *shape.sizes.get(feature)?;
            let branches = (0..size).map(|_| self.branch(&nodes, feature + 1)).collect::<Option<Vec<Branch>>>()?;
            nodes.push(Node { feature, branches });
        }
        if self.two()? != 1 {
            return None;
        }
        let root = self.branch(&nodes, 0)?;
        Some(Diagram { nodes, roots: vec![root] })
    }
}

/// The list and the diagram that the sections say, twins, unreached nodes and any order with them.
fn parsed(bytes: &[u8]) -> Option<(Shape, Diagram)> {
    let mut all = Bytes { left: bytes };
    if all.two()? != 1 || all.byte()? != 1 {
        return None;
    }
    let shape = all.shape()?;
    let diagram = all.diagram(&shape)?;
    if all.left.is_empty() {
        Some((shape, diagram))
    } else {
        None
    }
}

/// The list and the rule whose sheet the bytes are: they say a rule, and are what the writer writes for it.
pub fn read(bytes: &[u8]) -> Told<(Shape, Rule)> {
    if bytes.len() >= 3 && bytes[..2] == [0, 1] && bytes[2] >= 2 {
        return Err(NEWER);
    }
    let (shape, diagram) = parsed(bytes).ok_or(BAD_SHEET)?;
    assert!(shape.settings() <= MOST_SETTINGS, "a list too long for the model");
    let rule = diagram.functions(&shape).and_then(|mut rules| rules.pop()).ok_or(BAD_SHEET)?;
    if diagram.nodes.len() > MOST_RESTS || written(&shape, &rule) != bytes {
        return Err(BAD_SHEET);
    }
    Ok((shape, rule))
}

#[cfg(test)]
mod tests {
    use super::*;

    /// The scope's sheet: one feature of size 2, phrases 7 and 9.
    const EXAMPLE: [u8; 20] = [0, 1, 1, 0, 1, 2, 0, 1, 0, 0, 0, 7, 0, 0, 9, 0, 1, 1, 0, 0];

    #[test]
    fn the_documents_sheets() {
        let shape = Shape::of(&[2]).unwrap();
        assert_eq!(written(&shape, &vec![7, 9]), EXAMPLE);
        assert_eq!(written(&shape, &vec![5, 5]), [0, 1, 1, 0, 1, 2, 0, 0, 0, 1, 0, 0, 5]);
        assert_eq!(read(&EXAMPLE), Ok((shape, vec![7, 9])));
    }

    #[test]
    fn newer_whatever_follows() {
        assert_eq!(read(&[0, 1, 2]), Err(NEWER));
        assert_eq!(read(&[0, 1, 255, 9]), Err(NEWER));
        assert_eq!(read(&[0, 1]), Err(BAD_SHEET));
        assert_eq!(read(&[0, 1, 0]), Err(BAD_SHEET));
        assert_eq!(read(&[]), Err(BAD_SHEET));
    }

    #[test]
    fn bytes_too_few_too_many_and_wrong() {
        (0..20).for_each(|n| assert_eq!(read(&EXAMPLE[..n]), Err(BAD_SHEET)));
        assert_eq!(read(&[&EXAMPLE[..], &[0]].concat()), Err(BAD_SHEET));
        let mut equal = EXAMPLE;
        equal[14] = 7;
        assert_eq!(read(&equal), Err(BAD_SHEET));
    }

    /// From here on a number says a node.
    const NODE: usize = 65536;

    fn branch(number: usize) -> Branch {
        let to = if number < NODE { To::End(number as u16) } else { To::Node(number - NODE) };
        Branch { adds: 0, to }
    }

    /// Over the sizes 2, 2: nodes of feature 1, and one of feature 0 with these branches.
    fn two_levels(leaves: &[[usize; 2]], root: [usize; 2]) -> Told<(Shape, Rule)> {
        let node = |feature, b: &[usize; 2]| Node { feature, branches: b.map(branch).to_vec() };
        let mut nodes: Vec<Node> = leaves.iter().map(|b| node(1, b)).collect();
        nodes.push(node(0, &root));
        let roots = vec![branch(NODE + leaves.len())];
        read(&lay_out(&Shape { sizes: vec![2, 2] }, &Diagram { nodes, roots }))
    }

    #[test]
    fn twins_unreached_nodes_and_wrong_order() {
        assert!(two_levels(&[[7, 9], [9, 7]], [NODE, NODE + 1]).is_ok());
        assert_eq!(two_levels(&[[7, 9], [9, 7]], [NODE + 1, NODE]), Err(BAD_SHEET));
        assert_eq!(two_levels(&[[7, 9], [7, 9]], [NODE, NODE + 1]), Err(BAD_SHEET));
        assert_eq!(two_levels(&[[7, 9], [9, 7]], [NODE, 5]), Err(BAD_SHEET));
        assert_eq!(two_levels(&[[7, 9]], [NODE, NODE]), Err(BAD_SHEET));
        assert_eq!(two_levels(&[[7, 9]], [NODE, NODE + 1]), Err(BAD_SHEET));
    }
}
