//! A plain Tarjan search with vectors, on the same graphs as `bench search`.
//! `tarjan SHAPE COUNT` prints the number of groups, and on standard error the microseconds.

use std::time::Instant;

fn chain(count: u32) -> Vec<Vec<u32>> {
    let mut succs: Vec<Vec<u32>> = (1..count).map(|node| vec![node]).collect();
    succs.push(Vec::new());
    succs
}

fn ring(count: u32) -> Vec<Vec<u32>> {
    let mut succs = chain(count);
    succs.last_mut().unwrap().push(0);
    succs
}

fn random(count: u32) -> Vec<Vec<u32>> {
    let mut succs = vec![Vec::new(); count as usize];
    let mut state = 1u64;
    for _ in 0..count as u64 * 9 / 2 {
        let caller = next_below(&mut state, count);
        let callee = next_below(&mut state, count);
        succs[caller as usize].push(callee);
    }
    succs
}

fn next_below(state: &mut u64, count: u32) -> u32 {
    *state = state.wrapping_mul(6364136223846793005).wrapping_add(1442695040888963407);
    (*state >> 33) as u32 % count
}

/// Not seen yet.
const UNSEEN: u32 = u32::MAX;

/// The groups of what the roots reach, callees first, with the members of each ascending.
fn groups(succs: &[Vec<u32>], roots: &[u32]) -> Vec<Vec<u32>> {
    let mut index = vec![UNSEEN; succs.len()];
    let mut low = vec![0; succs.len()];
    let mut on_stack = vec![false; succs.len()];
    let mut stack = Vec::new();
    let mut frames: Vec<(u32, usize)> = Vec::new();
    let mut next = 0;
    let mut groups = Vec::new();
    for &root in roots {
        if index[root as usize] != UNSEEN {
            continue;
        }
        frames.push((root, 0));
        while let Some((node, begun)) = frames.last_mut() {
            let here = *node as usize;
            if *begun == 0 {
                index[here] = next;
                low[here] = next;
                next += 1;
                stack.push(*node);
                on_stack[here] = true;
            }
            if let Some(&callee) = succs[here].get(*begun) {
                *begun += 1;
                if index[callee as usize] == UNSEEN {
                    frames.push((callee, 0));
                } else if on_stack[callee as usize] {
                    low[here] = low[here].min(index[callee as usize]);
                }
                continue;
            }
            frames.pop();
            if let Some(&(caller, _)) = frames.last() {
                low[caller as usize] = low[caller as usize].min(low[here]);
            }
            if low[here] == index[here] {
                let first = stack.iter().rposition(|&node| node as usize == here).unwrap();
                let mut group = stack.split_off(first);
                for &node in &group {
                    on_stack[node as usize] = false;
                }
                group.sort_unstable();
                groups.push(group);
            }
        }
    }
    groups
}

fn main() {
    let words: Vec<String> = std::env::args().collect();
    let count = words[2].parse().unwrap();
    let (succs, roots) = match words[1].as_str() {
        "chain" => (chain(count), vec![0]),
        "ring" => (ring(count), vec![0]),
        "random" => (random(count), (0..count).collect()),
        shape => panic!("no shape {shape}"),
    };
    let begun = Instant::now();
    let groups = groups(&succs, &roots);
    eprintln!("{}", begun.elapsed().as_micros());
    println!("{}", groups.len());
}
