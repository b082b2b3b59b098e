//! Which edges the groups tie together, and which of these the blocks fix at 0.
use crate::Record;

/// The classes of two and more edges that must be equal and may be 1, and what
/// is fixed from the start.
pub fn of(record: &Record) -> (Vec<Vec<usize>>, Vec<Option<i32>>) {
    let mut root = (0..record.edges.len()).collect::<Vec<_>>();
    for group in &record.groups {
        for pair in group.windows(2) {
            let (a, b) = (find(&root, pair[0]), find(&root, pair[1]));
            root[a.max(b)] = a.min(b);
        }
    }
    let mut classes = vec![Vec::new(); root.len()];
    for edge in 0..root.len() {
        classes[find(&root, edge)].push(edge);
    }
    let mut fixed = vec![None; root.len()];
    for &edge in &record.blocked {
        let class = &mut classes[find(&root, edge)];
        class.drain(..).for_each(|edge| fixed[edge] = Some(0));
    }
    classes.retain(|class| class.len() > 1);
    (classes, fixed)
}

fn find(root: &[usize], mut edge: usize) -> usize {
    while root[edge] != edge {
        edge = root[edge];
    }
    edge
}
