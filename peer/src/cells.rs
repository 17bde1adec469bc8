//! Volumes, faces, rings, and the message order of a volume's darts.

use crate::value::{Links, Point};
use std::collections::{BTreeMap, BTreeSet};

/// The volume of a dart: what next and opposite reach.
pub fn volume(map: &impl Links, serial: u32) -> BTreeSet<u32> {
    let mut reached = BTreeSet::from([serial]);
    let mut open = vec![serial];
    while let Some(dart) = open.pop() {
        for neighbour in [map.next(dart), map.opposite(dart)] {
            if reached.insert(neighbour) {
                open.push(neighbour);
            }
        }
    }
    reached
}

/// All volumes among the given darts, by least serial.
pub fn volumes(map: &impl Links, darts: impl Iterator<Item = u32>) -> Vec<BTreeSet<u32>> {
    let mut seen = BTreeSet::new();
    let mut found = Vec::new();
    for serial in darts {
        if !seen.contains(&serial) {
            let cell = volume(map, serial);
            seen.extend(cell.iter().copied());
            found.push(cell);
        }
    }
    found
}

/// The face of a dart, started at that dart, along next.
pub fn face(map: &impl Links, start: u32) -> Vec<u32> {
    let mut darts = vec![start];
    let mut dart = map.next(start);
    while dart != start {
        darts.push(dart);
        dart = map.next(dart);
    }
    darts
}

/// Message order: faces by least serial, each started at its least serial.
pub fn faces(map: &impl Links, darts: &BTreeSet<u32>) -> Vec<Vec<u32>> {
    let mut seen = BTreeSet::new();
    let mut found = Vec::new();
    for serial in darts {
        if !seen.contains(serial) {
            let loop_ = face(map, *serial);
            seen.extend(loop_.iter().copied());
            found.push(loop_);
        }
    }
    found
}

/// Vertices are the rings, numbered from 0 by first use in message order.
pub fn vertices(map: &impl Links, faces: &[Vec<u32>]) -> BTreeMap<u32, u32> {
    let mut vertex = BTreeMap::new();
    let mut count = 0;
    for &start in faces.iter().flatten() {
        if vertex.contains_key(&start) {
            continue;
        }
        let mut dart = start;
        while vertex.insert(dart, count).is_none() {
            dart = map.next(map.opposite(dart));
        }
        count += 1;
    }
    vertex
}

/// Question 13: every ordered vertex pair once, ends different.
pub fn pairs_right(map: &impl Links, faces: &[Vec<u32>], vertex: &BTreeMap<u32, u32>) -> bool {
    let mut seen = BTreeSet::new();
    faces.iter().flatten().all(|dart| {
        let (from, to) = (vertex[dart], vertex[&map.next(*dart)]);
        from != to && seen.insert((from, to))
    })
}

/// Points of the vertices by number.
pub fn vertex_points(vertex: &BTreeMap<u32, u32>, point: impl Fn(u32) -> Point) -> Vec<Point> {
    let by_number: BTreeMap<u32, Point> = vertex.iter().map(|(dart, v)| (*v, point(*dart))).collect();
    by_number.into_values().collect()
}
