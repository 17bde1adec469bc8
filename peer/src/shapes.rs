//! Maps under construction: shapes of volumes, sewn together, with a point for each vertex class.
//!
//! Darts are numbered from 0 here; serials and blocks come later, in `generate`.

use crate::value::Point;
use std::collections::{BTreeMap, BTreeSet};

/// A map of volumes with next, opposite, third links and a wished point for each dart.
#[derive(Clone, Default, Debug)]
pub struct Map {
    pub next: Vec<usize>,
    pub opposite: Vec<usize>,
    pub third: Vec<Option<usize>>,
    pub wish: Vec<[f64; 3]>,
}

impl Map {
    pub fn len(&self) -> usize {
        self.next.len()
    }

    pub fn is_empty(&self) -> bool {
        self.next.is_empty()
    }

    /// Adds volumes given by next and opposite among themselves; gives the first dart's number.
    pub fn add(&mut self, next: &[usize], opposite: &[usize], wish: &[[f64; 3]]) -> usize {
        let base = self.len();
        self.next.extend(next.iter().map(|dart| base + dart));
        self.opposite.extend(opposite.iter().map(|dart| base + dart));
        self.third.extend(std::iter::repeat_n(None, next.len()));
        self.wish.extend_from_slice(wish);
        base
    }

    /// Adds a polyhedron given by its faces as vertex loops; each ordered pair occurs once, its reverse too.
    pub fn add_faces(&mut self, faces: &[Vec<usize>], points: &[[f64; 3]]) -> usize {
        let mut next = Vec::new();
        let mut by_pair = BTreeMap::new();
        let mut pairs = Vec::new();
        let mut wish = Vec::new();
        for face in faces {
            let start = next.len();
            for (k, vertex) in face.iter().enumerate() {
                let after = (k + 1) % face.len();
                by_pair.insert((*vertex, face[after]), next.len());
                pairs.push((*vertex, face[after]));
                next.push(start + after);
                wish.push(points[*vertex]);
            }
        }
        let opposite: Vec<usize> = pairs.iter().map(|(from, to)| by_pair[&(*to, *from)]).collect();
        self.add(&next, &opposite, &wish)
    }

    /// Adds all of another map.
    pub fn append(&mut self, other: &Map) {
        let base = self.add(&other.next, &other.opposite, &other.wish);
        for (dart, third) in other.third.iter().enumerate() {
            self.third[base + dart] = third.map(|partner| base + partner);
        }
    }

    pub fn face(&self, start: usize) -> Vec<usize> {
        let mut darts = vec![start];
        let mut dart = self.next[start];
        while dart != start {
            darts.push(dart);
            dart = self.next[dart];
        }
        darts
    }

    /// One start for each face.
    pub fn face_starts(&self) -> Vec<usize> {
        let mut seen = vec![false; self.len()];
        let mut starts = Vec::new();
        for dart in 0..self.len() {
            if !seen[dart] {
                starts.push(dart);
                for other in self.face(dart) {
                    seen[other] = true;
                }
            }
        }
        starts
    }

    /// The volume number of each dart, and how many volumes there are.
    pub fn volumes(&self) -> (Vec<usize>, usize) {
        let mut cell = vec![usize::MAX; self.len()];
        let mut count = 0;
        for start in 0..self.len() {
            if cell[start] != usize::MAX {
                continue;
            }
            let mut open = vec![start];
            cell[start] = count;
            while let Some(dart) = open.pop() {
                for other in [self.next[dart], self.opposite[dart]] {
                    if cell[other] == usize::MAX {
                        cell[other] = count;
                        open.push(other);
                    }
                }
            }
            count += 1;
        }
        (cell, count)
    }

    /// Sews the face of d to the face of e, d to e; both free and of one size, or one face of
    /// even size with an odd distance from d to e.
    pub fn sew(&mut self, d: usize, e: usize) -> bool {
        let mine = self.face(d);
        let mut theirs = self.face(e);
        theirs[1..].reverse();
        let fits = mine.len() == theirs.len()
            && mine.iter().zip(&theirs).all(|(a, b)| a != b)
            && mine.iter().chain(&theirs).all(|dart| self.third[*dart].is_none());
        if fits {
            for (a, b) in mine.iter().zip(&theirs) {
                self.third[*a] = Some(*b);
                self.third[*b] = Some(*a);
            }
        }
        fits
    }

    /// The class of each dart under d ~ next(opposite d) and d ~ next(third d): darts with one point.
    pub fn point_classes(&self) -> Vec<usize> {
        let mut class: Vec<usize> = (0..self.len()).collect();
        fn root(class: &mut [usize], mut dart: usize) -> usize {
            while class[dart] != dart {
                class[dart] = class[class[dart]];
                dart = class[dart];
            }
            dart
        }
        for dart in 0..self.len() {
            let mut joined = vec![self.next[self.opposite[dart]]];
            joined.extend(self.third[dart].map(|partner| self.next[partner]));
            for other in joined {
                let (a, b) = (root(&mut class, dart), root(&mut class, other));
                class[a.max(b)] = a.min(b);
            }
        }
        (0..self.len()).map(|dart| root(&mut class, dart)).collect()
    }

    /// The wished point of each class, so that points agree.
    pub fn wished_points(&self) -> Vec<Point> {
        self.point_classes().into_iter().map(|class| Point::of(self.wish[class])).collect()
    }

    /// Sews faces whose wished points match in reverse, at most two to a set of points.
    pub fn sew_matching(&mut self) {
        let mut by_points: BTreeMap<BTreeSet<[u64; 3]>, Vec<usize>> = BTreeMap::new();
        for start in self.face_starts() {
            let key = self.face(start).iter().map(|dart| self.wish[*dart].map(f64::to_bits)).collect();
            by_points.entry(key).or_default().push(start);
        }
        for faces in by_points.values() {
            if let [d, f] = faces[..] {
                let (from, to) = (self.wish[d], self.wish[self.next[d]]);
                let turned = self.face(f).into_iter().find(|e| self.wish[*e] == to && self.wish[self.next[*e]] == from);
                if let Some(e) = turned {
                    self.sew(d, e);
                }
            }
        }
    }
}

/// Two faces of n darts, back to back; P of the paper for n = 3.
pub fn pillow(map: &mut Map, n: usize) -> usize {
    let next: Vec<usize> = (0..2 * n).map(|d| if d < n { (d + 1) % n } else { n + (d - n + 1) % n }).collect();
    let opposite: Vec<usize> = (0..2 * n).map(|d| 2 * n - 1 - d).collect();
    let wish: Vec<[f64; 3]> = (0..2 * n)
        .map(|d| {
            // Dart n + k goes back along dart n − 1 − k.
            let vertex = if d < n { d } else { (2 * n - d) % n };
            [vertex as f64, (vertex * vertex) as f64, 0.0]
        })
        .collect();
    map.add(&next, &opposite, &wish)
}

/// A prism over an n-gon.
pub fn prism(map: &mut Map, n: usize) -> usize {
    let mut faces = vec![(0..n).rev().collect::<Vec<_>>(), (n..2 * n).collect()];
    for k in 0..n {
        let after = (k + 1) % n;
        faces.push(vec![k, after, n + after, n + k]);
    }
    let points: Vec<[f64; 3]> =
        (0..2 * n).map(|v| [(v % n) as f64, ((v % n) * (v % n)) as f64, (v / n) as f64]).collect();
    map.add_faces(&faces, &points)
}

/// A pyramid over an n-gon; n = 3 is a tetrahedron.
pub fn pyramid(map: &mut Map, n: usize) -> usize {
    let mut faces = vec![(0..n).rev().collect::<Vec<_>>()];
    for k in 0..n {
        faces.push(vec![k, (k + 1) % n, n]);
    }
    let points: Vec<[f64; 3]> =
        (0..=n).map(|v| if v == n { [0.5, 0.5, 1.0] } else { [v as f64, (v * v) as f64, 0.0] }).collect();
    map.add_faces(&faces, &points)
}

/// A torus of m × n squares; passes question 13 when both are at least 3.
pub fn torus(map: &mut Map, m: usize, n: usize) -> usize {
    let square = |a: usize, b: usize| 4 * ((a % m) * n + b % n);
    let (mut next, mut opposite, mut wish) = (Vec::new(), Vec::new(), Vec::new());
    for a in 0..m {
        for b in 0..n {
            let base = square(a, b);
            next.extend([base + 1, base + 2, base + 3, base]);
            // Across the edge of each side: below, right, above, left.
            opposite.extend([
                square(a, b + n - 1) + 2,
                square(a + 1, b) + 3,
                square(a, b + 1),
                square(a + m - 1, b) + 1,
            ]);
            for (i, j) in [(0, 0), (1, 0), (1, 1), (0, 1)] {
                wish.push([((a + i) % m) as f64, ((b + j) % n) as f64, 0.25]);
            }
        }
    }
    map.add(&next, &opposite, &wish)
}

/// The eight corners of a unit cube, the first bit along x.
fn cube_corner(at: [usize; 3], corner: usize) -> [f64; 3] {
    [0, 1, 2].map(|axis| (at[axis] + (corner >> axis & 1)) as f64)
}

/// How a cube of a grid is filled.
#[derive(Clone, Copy, PartialEq, Eq, Debug)]
pub enum Filling {
    Hexahedra,
    Prisms,
    Tetrahedra,
}

impl Filling {
    /// Darts of one cube.
    pub fn darts(self) -> usize {
        match self {
            Filling::Hexahedra => 24,
            Filling::Prisms => 2 * 18,
            Filling::Tetrahedra => 6 * 12,
        }
    }
}

/// A grid of cubes, each filled, matching faces sewn.
pub fn grid(size: [usize; 3], filling: Filling) -> Map {
    let cells: Vec<Vec<Vec<usize>>> = match filling {
        Filling::Hexahedra => vec![vec![
            vec![0, 2, 3, 1],
            vec![4, 5, 7, 6],
            vec![0, 1, 5, 4],
            vec![2, 6, 7, 3],
            vec![0, 4, 6, 2],
            vec![1, 3, 7, 5],
        ]],
        Filling::Prisms => vec![
            vec![vec![0, 3, 1], vec![4, 5, 7], vec![0, 1, 5, 4], vec![1, 3, 7, 5], vec![3, 0, 4, 7]],
            vec![vec![0, 2, 3], vec![4, 7, 6], vec![0, 3, 7, 4], vec![3, 2, 6, 7], vec![2, 0, 4, 6]],
        ],
        // Six tetrahedra round the diagonal 0-7, one for each order of the axes.
        Filling::Tetrahedra => [(1, 3), (3, 2), (2, 6), (6, 4), (4, 5), (5, 1)]
            .iter()
            .map(|(a, b)| vec![vec![0, *a, *b], vec![0, 7, *a], vec![0, *b, 7], vec![*a, 7, *b]])
            .collect(),
    };
    let mut map = Map::default();
    for x in 0..size[0] {
        for y in 0..size[1] {
            for z in 0..size[2] {
                let points: Vec<[f64; 3]> = (0..8).map(|corner| cube_corner([x, y, z], corner)).collect();
                for faces in &cells {
                    map.add_faces(faces, &points);
                }
            }
        }
    }
    map.sew_matching();
    map
}
