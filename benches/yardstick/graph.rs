//! Linkage classes, strong classes and reverses, with the trees, levels and exits of a certificate.

use crate::net::Net;

/// For each complex the reactions that leave it, and those that enter it.
pub struct Links {
    from: Vec<u32>,
    out: Vec<u32>,
    to: Vec<u32>,
    into: Vec<u32>,
}

/// Numbers sorted by their key: those of key k from place `starts[k]` on.
fn sorted(keys: usize, key: impl Iterator<Item = u32> + Clone) -> (Vec<u32>, Vec<u32>) {
    let mut starts = vec![0u32; keys + 1];
    for k in key.clone() {
        starts[k as usize + 1] += 1;
    }
    for k in 0..keys {
        starts[k + 1] += starts[k];
    }
    let (mut next, mut places) = (starts.clone(), vec![0; starts[keys] as usize]);
    for (place, k) in key.enumerate() {
        places[next[k as usize] as usize] = place as u32;
        next[k as usize] += 1;
    }
    (starts, places)
}

impl Links {
    pub fn new(net: &Net) -> Links {
        let (from, out) = sorted(net.complexes.len(), net.reactions.iter().map(|(y, _)| *y));
        let (to, into) = sorted(net.complexes.len(), net.reactions.iter().map(|(_, z)| *z));
        Links { from, out, to, into }
    }

    fn out(&self, c: u32) -> &[u32] {
        &self.out[self.from[c as usize] as usize..self.from[c as usize + 1] as usize]
    }

    fn into(&self, c: u32) -> &[u32] {
        &self.into[self.to[c as usize] as usize..self.to[c as usize + 1] as usize]
    }
}

/// Labels from 1 by first appearance.
#[derive(Default)]
pub struct Classes {
    pub count: u32,
    pub label: Vec<u32>,
}

/// For each complex but the first of its class a reaction that joins it to its parent, and its depth.
pub struct Forest {
    pub up: Vec<u32>,
    pub depth: Vec<u32>,
}

pub fn linkage(net: &Net, links: &Links) -> (Classes, Forest) {
    let size = net.complexes.len();
    let (mut label, mut up, mut depth) = (vec![0; size], vec![0; size], vec![0; size]);
    let (mut count, mut queue) = (0, Vec::with_capacity(size));
    for first in 0..size as u32 {
        if label[first as usize] != 0 {
            continue;
        }
        count += 1;
        label[first as usize] = count;
        let mut at = queue.len();
        queue.push(first);
        while at < queue.len() {
            let c = queue[at];
            at += 1;
            for r in links.out(c).iter().chain(links.into(c)) {
                let (y, z) = net.reactions[*r as usize];
                let other = (y ^ z ^ c) as usize;
                if label[other] == 0 {
                    label[other] = count;
                    up[other] = r + 1;
                    depth[other] = depth[c as usize] + 1;
                    queue.push(other as u32);
                }
            }
        }
    }
    (Classes { count, label }, Forest { up, depth })
}

pub struct Strong {
    pub classes: Classes,
    /// For each class a reaction that leaves it, or 0.
    pub exits: Vec<u32>,
    pub levels: Vec<u32>,
}

/// The strong classes, by Tarjan's walk: a class is finished before all classes that lead to it, so this order gives
/// the levels.
pub fn strong(net: &Net, links: &Links) -> Strong {
    const FREE: u32 = u32::MAX;
    let size = net.complexes.len();
    let (mut order, mut low, mut component) = (vec![FREE; size], vec![0; size], vec![FREE; size]);
    let (mut met, mut finished) = (0, 0);
    let (mut stack, mut walk): (Vec<u32>, Vec<(u32, u32)>) = (Vec::with_capacity(size), Vec::with_capacity(size));
    for first in 0..size as u32 {
        if order[first as usize] == FREE {
            walk.push((first, 0));
        }
        while let Some((c, next)) = walk.last_mut() {
            let here = *c as usize;
            if *next == 0 {
                (order[here], low[here]) = (met, met);
                met += 1;
                stack.push(*c);
            }
            if let Some(r) = links.out(*c).get(*next as usize) {
                *next += 1;
                let z = net.reactions[*r as usize].1;
                if order[z as usize] == FREE {
                    walk.push((z, 0));
                } else if component[z as usize] == FREE {
                    low[here] = low[here].min(order[z as usize]);
                }
                continue;
            }
            if low[here] == order[here] {
                while let Some(z) = stack.pop() {
                    component[z as usize] = finished;
                    if z as usize == here {
                        break;
                    }
                }
                finished += 1;
            }
            walk.pop();
            if let Some((above, _)) = walk.last() {
                low[*above as usize] = low[*above as usize].min(low[here]);
            }
        }
    }
    let (mut number, mut levels) = (vec![0; finished as usize], Vec::with_capacity(finished as usize));
    let mut label = component;
    for c in &mut label {
        let component = *c;
        if number[component as usize] == 0 {
            levels.push(component);
            number[component as usize] = levels.len() as u32;
        }
        *c = number[component as usize];
    }
    let mut exits = vec![0; finished as usize];
    for (r, (y, z)) in net.reactions.iter().enumerate() {
        if label[*y as usize] != label[*z as usize] {
            exits[label[*y as usize] as usize - 1] = r as u32 + 1;
        }
    }
    Strong { classes: Classes { count: finished, label }, exits, levels }
}

/// A tree in each strong class of reactions that lead away from its first complex, or, backwards, that lead to it.
pub fn strong_tree(net: &Net, links: &Links, classes: &Classes, backwards: bool) -> Forest {
    let size = net.complexes.len();
    let (mut up, mut depth, mut is_met) = (vec![0; size], vec![0; size], vec![false; size]);
    let mut queue = Vec::with_capacity(size);
    for first in 0..size as u32 {
        if is_met[first as usize] {
            continue;
        }
        is_met[first as usize] = true;
        let mut at = queue.len();
        queue.push(first);
        while at < queue.len() {
            let c = queue[at];
            at += 1;
            for r in if backwards { links.into(c) } else { links.out(c) } {
                let (y, z) = net.reactions[*r as usize];
                let other = (y ^ z ^ c) as usize;
                if !is_met[other] && classes.label[other] == classes.label[c as usize] {
                    is_met[other] = true;
                    up[other] = r + 1;
                    depth[other] = depth[c as usize] + 1;
                    queue.push(other as u32);
                }
            }
        }
    }
    Forest { up, depth }
}

/// The reverse of each reaction, or a reaction without one.
pub fn reverses(net: &Net, links: &Links) -> Result<Vec<u32>, u32> {
    let mut back = Vec::with_capacity(net.reactions.len());
    for (r, (y, z)) in net.reactions.iter().enumerate() {
        let reverse = links.out(*z).iter().find(|q| net.reactions[**q as usize].1 == *y);
        back.push(reverse.ok_or(r as u32 + 1)? + 1);
    }
    Ok(back)
}
