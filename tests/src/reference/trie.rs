//! The trie image, version 31.
use super::*;

const LONGEST_LABEL: usize = 7;

/// A node; a leaf has no children.
struct Node {
    label: Vec<u8>,
    score: u32,
    children: Vec<Node>,
}

/// The sibling group of a set of suffixes.
fn group(suffixes: &Entries) -> Vec<Node> {
    let mut by_first: BTreeMap<Option<u8>, Entries> = BTreeMap::new();
    for (suffix, score) in suffixes {
        by_first.entry(suffix.first().copied()).or_default().insert(suffix.clone(), *score);
    }
    let mut nodes: Vec<Node> = by_first.values().map(node).collect();
    nodes.sort_by(|a, b| b.score.cmp(&a.score).then(a.label.cmp(&b.label)));
    nodes
}

/// The node of suffixes that begin with the same byte, or of the empty suffix.
fn node(suffixes: &Entries) -> Node {
    let one = suffixes.keys().next().unwrap();
    let shared = suffixes.keys().map(|suffix| common(one, suffix)).min().unwrap();
    let label = one[..shared.min(LONGEST_LABEL)].to_vec();
    let remains: Entries =
        suffixes.iter().map(|(suffix, score)| (suffix[label.len()..].to_vec(), *score)).collect();
    let used_up = remains.len() == 1 && remains.contains_key(&[][..]);
    Node {
        label,
        score: *suffixes.values().max().unwrap(),
        children: if used_up { Vec::new() } else { group(&remains) },
    }
}

/// The smallest size code that holds a value.
fn size_code(value: usize) -> u8 {
    match value {
        0 => 0,
        1..=0xFF => 1,
        0x100..=0xFFFF => 2,
        _ => 3,
    }
}

fn size_of(code: u8) -> usize {
    [0, 1, 2, 4][code as usize]
}

fn field(value: usize, code: u8) -> Vec<u8> {
    (value as u32).to_be_bytes()[4 - size_of(code)..].to_vec()
}

/// A group and all its descendants. `before` is the score that the first sibling's score field is
/// counted from.
fn group_bytes(nodes: &[Node], first_of_all: bool) -> Vec<u8> {
    let below: Vec<Vec<u8>> = nodes
        .iter()
        .map(|n| if n.children.is_empty() { Vec::new() } else { group_bytes(&n.children, false) })
        .collect();
    let score_fields: Vec<usize> = (0..nodes.len())
        .map(|i| match i {
            0 if first_of_all => nodes[0].score as usize,
            0 => 0,
            _ => (nodes[i - 1].score - nodes[i].score) as usize,
        })
        .collect();
    let with_children: Vec<usize> =
        (0..nodes.len()).filter(|&i| !nodes[i].children.is_empty()).collect();
    let mut child_fields = vec![0; nodes.len()];
    for pair in with_children.windows(2) {
        child_fields[pair[1]] = below[pair[0]].len();
    }
    // The group's bytes but for the child field of the first node with children, which counts
    // itself.
    let others: usize = (0..nodes.len())
        .map(|i| {
            1 + size_of(size_code(score_fields[i]))
                + size_of(size_code(child_fields[i]))
                + nodes[i].label.len()
        })
        .sum();
    if let Some(&first) = with_children.first() {
        let size = [1, 2, 4].into_iter().find(|&size| others + size < 1 << (8 * size)).unwrap();
        child_fields[first] = others + size;
    }
    let mut bytes = Vec::new();
    for (i, node) in nodes.iter().enumerate() {
        let score_code = size_code(score_fields[i]);
        let child_code = size_code(child_fields[i]);
        let last = (i + 1 == nodes.len()) as u8;
        bytes.push(score_code << 6 | child_code << 4 | last << 3 | node.label.len() as u8);
        bytes.extend(field(score_fields[i], score_code));
        bytes.extend(field(child_fields[i], child_code));
        bytes.extend(&node.label);
    }
    below.iter().for_each(|b| bytes.extend(b));
    bytes
}

pub fn image(entries: &Entries) -> Vec<u8> {
    let rest = if entries.is_empty() { Vec::new() } else { group_bytes(&group(entries), true) };
    framed(0x31, entries.len(), &rest)
}

/// What the nodes from a group on say, right or wrong: the entries below it.
fn said(fields: &mut Fields, path: &[u8], best: Option<u32>, entries: &mut Entries) -> Option<()> {
    let mut inner = Vec::new();
    let mut score = best;
    loop {
        let header = fields.number(1)? as u8;
        let less = fields.number(size_of(header >> 6))?;
        fields.number(size_of(header >> 4 & 3))?;
        let label = fields.take((header & 7) as usize)?;
        let own = match score {
            None => less,
            Some(before) => before.checked_sub(less)?,
        };
        score = Some(own);
        let name = [path, label].concat();
        if name.len() > LONGEST_NAME {
            return None;
        }
        if header >> 4 & 3 == 0 {
            if entries.insert(name, own).is_some() {
                return None;
            }
        } else if label.is_empty() {
            return None;
        } else {
            inner.push((name, own));
        }
        if header & 8 != 0 {
            break;
        }
    }
    inner.iter().try_for_each(|(path, own)| said(fields, path, Some(*own), entries))
}

/// The entries of the trie at the front of a buffer: those whose image, written again, is what
/// stands there.
pub fn read(buffer: &[u8]) -> Option<Entries> {
    let (n, bytes) = unframed(0x31, buffer)?;
    let mut entries = Entries::new();
    if n > 0 {
        said(&mut Fields { image: bytes, at: 7 }, &[], None, &mut entries)?;
    }
    (is_valid(&entries) && image(&entries) == bytes).then_some(entries)
}
