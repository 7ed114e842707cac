//! Finds the strongly connected components of a graph of pairs of names by petgraph's `kosaraju_scc`, which needs no recursion, and prints the members of each.
use petgraph::algo::kosaraju_scc;
use petgraph::graph::{DiGraph, NodeIndex};
use std::collections::HashMap;
use std::io::Write;

fn main() -> std::io::Result<()> {
    let text = std::fs::read(std::env::args().nth(1).expect("a file"))?;
    let mut places: HashMap<&[u8], NodeIndex> = HashMap::new();
    let mut graph: DiGraph<&[u8], ()> = DiGraph::new();
    for line in text.split(|byte| *byte == b'\n') {
        let mut ends = line.split(|byte| *byte == b' ').map(|name| *places.entry(name).or_insert_with(|| graph.add_node(name)));
        if let (Some(from), Some(to)) = (ends.next(), ends.next()) {
            drop(ends);
            graph.add_edge(from, to, ());
        }
    }
    let mut out = Vec::new();
    for group in kosaraju_scc(&graph) {
        for node in group {
            out.extend_from_slice(graph[node]);
            out.push(b' ');
        }
        out.push(b'\n');
    }
    std::io::stdout().write_all(&out)
}
