//! Newick as viewers read it: Olsen's grammar without quotes and comments. Names and lengths are free, and a node has one
//! child or more.

use crate::shapes::NONE;

#[derive(Debug)]
pub struct Node<'a> {
    /// By their places among the nodes.
    children: Vec<usize>,
    name: &'a str,
    length: Option<f64>,
}

/// The nodes in the order in which they end, the root last; none where the text is not of this grammar.
pub fn read(text: &str) -> Option<Vec<Node<'_>>> {
    let mut nodes = Vec::new();
    let mut open: Vec<Vec<usize>> = Vec::new();
    let mut rest = text;
    let mut children = Vec::new();
    loop {
        // After a parenthesis that closed there is no other node to begin.
        while let Some(after) = rest.strip_prefix('(').filter(|_| children.is_empty()) {
            open.push(Vec::new());
            rest = after;
        }
        let (name, length, after) = label(rest)?;
        nodes.push(Node { children, name, length });
        children = Vec::new();
        rest = after.get(1..)?;
        match after.as_bytes()[0] {
            b',' => open.last_mut()?.push(nodes.len() - 1),
            b')' => {
                children = open.pop()?;
                children.push(nodes.len() - 1);
            }
            b';' => return (open.is_empty() && rest.is_empty() && nodes.len() > 1).then_some(nodes),
            _ => return None,
        }
    }
}

/// A name, which may be empty, a length where there is one, and what comes after them.
fn label(text: &str) -> Option<(&str, Option<f64>, &str)> {
    let end = |text: &str| text.find(['(', ')', '[', ']', '\'', ':', ';', ',', ' ', '\t', '\n']);
    let (name, rest) = text.split_at(end(text)?);
    let Some(rest) = rest.strip_prefix(':') else {
        return Some((name, None, rest));
    };
    let (length, rest) = rest.split_at(end(rest)?);
    Some((name, Some(length.parse().ok()?), rest))
}

/// That these are a tree's nodes: two children each in their order, tips alone named and by number, lengths from the ages, in
/// thousandths, of their ends. A quotient of whole numbers below 2^53 is rounded as its decimals are.
pub fn are_of(nodes: &[Node], pairs: &[u16], ages: &[u64], root: usize) -> bool {
    let mut stack = vec![(nodes.len() - 1, root, None)];
    let mut seen = 0;
    while let Some((at, node, length)) = stack.pop() {
        let children = [pairs[2 * node], pairs[2 * node + 1]];
        let name = if children[0] == NONE { node.to_string() } else { String::new() };
        let count = if children[0] == NONE { 0 } else { 2 };
        let own = &nodes[at];
        if own.name != name || own.length != length || own.children.len() != count {
            return false;
        }
        for (&at, child) in own.children.iter().zip(children.map(usize::from)) {
            stack.push((at, child, Some((ages[node] - ages[child]) as f64 / 1000.0)));
        }
        seen += 1;
    }
    seen == nodes.len()
}

#[cfg(test)]
mod tests {
    use super::read;

    #[test]
    fn grammar() {
        let names = |text| read(text).map(|nodes| nodes.iter().map(|node| node.name).collect::<Vec<_>>());
        assert_eq!(names("(A,B,(C,D)E)F;"), Some(vec!["A", "B", "C", "D", "E", "F"]));
        assert_eq!(names("(,(,),);"), Some(vec![""; 6]));
        assert_eq!(names("(a:-1e3,b:.5)r:0;"), Some(vec!["a", "b", "r"]));
        for wrong in
            ["", "a;", ";", "(a,b)", "(a,b;", "a,b);", "(a,b)(c,d);", "(a:x,b);", "(a,b); ", "(a b);"]
        {
            assert_eq!(names(wrong), None, "{wrong}");
        }
    }
}
