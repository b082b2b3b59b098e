//! Maximum flow by Dinic's method.
use std::collections::VecDeque;

/// Stands for a node that cannot be reached.
const FAR: usize = usize::MAX;

struct Arc {
    to: usize,
    room: i64,
}

/// Arcs stand in pairs: arc `i ^ 1` undoes arc `i`. The last two nodes are the
/// source and the sink.
pub struct Network {
    arcs: Vec<Arc>,
    leaving: Vec<Vec<usize>>,
}

impl Network {
    /// A network of so many nodes beside the source and the sink.
    pub fn new(nodes: usize) -> Self {
        Self { arcs: Vec::new(), leaving: vec![Vec::new(); nodes + 2] }
    }

    pub fn add(&mut self, from: usize, to: usize, room: i64) {
        self.leaving[from].push(self.arcs.len());
        self.arcs.push(Arc { to, room });
        self.leaving[to].push(self.arcs.len());
        self.arcs.push(Arc { to: from, room: 0 });
    }

    /// What goes along the pair of arcs that was added at this place.
    pub fn sent(&self, place: usize) -> i32 {
        self.arcs[2 * place + 1].room as i32
    }

    /// Sends all supplies, if that can be done.
    pub fn send(&mut self, supply: &[i64]) -> bool {
        let (source, sink) = (supply.len(), supply.len() + 1);
        for (node, &amount) in supply.iter().enumerate() {
            if amount > 0 {
                self.add(source, node, amount);
            } else {
                self.add(node, sink, -amount);
            }
        }
        let mut left = supply.iter().filter(|&&amount| amount > 0).sum::<i64>();
        let balanced = supply.iter().sum::<i64>() == 0;
        while balanced && left > 0 {
            let distance = self.distances(source);
            if distance[sink] == FAR {
                return false;
            }
            let mut tried = vec![0; self.leaving.len()];
            left -= self.push(source, sink, left, &distance, &mut tried);
        }
        balanced
    }

    /// How many arcs with room it takes to reach each node.
    fn distances(&self, source: usize) -> Vec<usize> {
        let mut distance = vec![FAR; self.leaving.len()];
        let mut queue = VecDeque::from([source]);
        distance[source] = 0;
        while let Some(node) = queue.pop_front() {
            for &arc in &self.leaving[node] {
                let Arc { to, room } = self.arcs[arc];
                if room > 0 && distance[to] == FAR {
                    distance[to] = distance[node] + 1;
                    queue.push_back(to);
                }
            }
        }
        distance
    }

    /// Pushes up to `most` from a node to the sink by shortest ways. `tried`
    /// counts the arcs of each node that lead nowhere any more.
    fn push(
        &mut self,
        node: usize,
        sink: usize,
        most: i64,
        distance: &[usize],
        tried: &mut [usize],
    ) -> i64 {
        if node == sink {
            return most;
        }
        let mut pushed = 0;
        while pushed < most && tried[node] < self.leaving[node].len() {
            let arc = self.leaving[node][tried[node]];
            let Arc { to, room } = self.arcs[arc];
            let mut amount = 0;
            if room > 0 && distance[to] == distance[node] + 1 {
                amount = self.push(to, sink, room.min(most - pushed), distance, tried);
            }
            self.arcs[arc].room -= amount;
            self.arcs[arc ^ 1].room += amount;
            pushed += amount;
            if pushed < most {
                tried[node] += 1;
            }
        }
        pushed
    }
}
