//! The calls on a whole mesh.

use crate::clock::{median, now};
use crate::table::{Limit, Times};
use compare::archive::Archive;
use peer::image::{ANSWER, SCRATCH};
use peer::lent::{Core, OracleNumbers};
use peer::plain::Plain;
use peer::scenes;
use peer::value::Viewers;
use std::hint::black_box;
use std::rc::Rc;

const EVERY: OracleNumbers = OracleNumbers { oracle: 0, axis: 0, floats: [0; 6] };

/// A mesh, and a call on it.
pub struct Hall {
    pub name: String,
    mesh: Rc<Vec<u64>>,
    /// The oracle of a next move, and the kind of its answer.
    next_move: Option<(OracleNumbers, u64)>,
}

impl Hall {
    /// Sixteen blocks of 4,080 darts.
    pub fn full(shuffled: bool) -> Vec<Hall> {
        let seed = shuffled.then_some(1);
        let mut halls = Hall::of_slabs([10, 17], seed);
        let room = Rc::new(scenes::mesh_with_room(170, 10, seed));
        halls.push(Hall { name: "next move, a move".into(), mesh: room, next_move: Some((EVERY, 2)) });
        halls.extend([
            Hall::blocked("30,720 volumes of 2 darts, refused by 13", scenes::mesh_that_stays(1, 2048, seed)),
            Hall::blocked(
                "30,510 volumes of 2 darts, 120 pairs of blocks, refused by 13",
                scenes::mesh_in_steps(1, 2048, seed),
            ),
            Hall::blocked("15,300 volumes of 4 darts, refused by 13", scenes::mesh_that_stays(2, 1020, seed)),
            Hall::blocked("10,200 volumes of 6 darts, refused by 14", scenes::mesh_with_full_counters(3, 340, seed)),
            Hall::blocked("300 volumes of 200 darts, refused by 14", scenes::mesh_with_full_counters(100, 10, seed)),
        ]);
        halls
    }

    /// Sixteen slabs of so many cells, and as many darts in volumes that may not leave; serials shuffled.
    pub fn growing(slab: [usize; 2]) -> Vec<Hall> {
        let mut halls = Hall::of_slabs(slab, Some(1));
        let volumes = 6 * slab[0] * slab[1];
        halls.push(Hall::blocked("volumes of 4 darts, refused by 13", scenes::mesh_that_stays(2, volumes, Some(1))));
        halls
    }

    /// A next move for which every volume of fifteen blocks is asked, and none may leave.
    fn blocked(which: &str, mesh: Vec<u64>) -> Hall {
        Hall { name: format!("next move, blocked: {which}"), mesh: Rc::new(mesh), next_move: Some((EVERY, 1)) }
    }

    /// The mesh check; a next move of a mesh that is level; one that a box picks cells for, all blocks being full.
    fn of_slabs(slab: [usize; 2], seed: Option<u64>) -> Vec<Hall> {
        let mesh = Rc::new(scenes::mesh(slab, seed));
        let upper = OracleNumbers { oracle: 1, floats: [8.5, 0.0, 0.0, 99.0, 99.0, 99.0].map(f64::to_bits), ..EVERY };
        // In blocks that are not full the picked cells have room.
        let found = if slab == [10, 17] { 1 } else { 2 };
        [("check mesh", None), ("next move, level", Some((EVERY, 0))), ("next move, a box", Some((upper, found)))]
            .map(|(name, next_move)| Hall { name: name.into(), mesh: mesh.clone(), next_move })
            .into()
    }

    pub fn limit(&self) -> Limit {
        Limit::plain(2.0).milliseconds(if self.next_move.is_none() { 40.0 } else { 60.0 })
    }

    /// The time of one call.
    fn time(&self, core: &dyn Core, scratch: &mut [u64]) -> f64 {
        let mesh = black_box(&self.mesh[..]);
        let mut answer = [9; ANSWER];
        let start = now();
        let number = match &self.next_move {
            None => core.check_mesh(mesh, Viewers::NONE, scratch),
            Some((oracle, _)) => core.next_move(mesh, Viewers::NONE, oracle, scratch, &mut answer),
        };
        let time = now() - start;
        assert_eq!(number, 0, "{}", self.name);
        if let Some((_, wanted)) = self.next_move {
            assert_eq!(answer[0], wanted, "{}", self.name);
        }
        time
    }

    /// The medians of the call over so many turns: plain, proved, a copy of the mesh.
    pub fn times(&self, turns: usize) -> Times {
        let mut scratch = vec![0; SCRATCH];
        let mut copy = self.mesh.to_vec();
        let mut times = [(); 3].map(|()| Vec::with_capacity(turns));
        for _ in 0..turns {
            times[0].push(self.time(&Plain, &mut scratch));
            times[1].push(self.time(&Archive, &mut scratch));
            let start = now();
            copy.copy_from_slice(black_box(&self.mesh));
            black_box(&copy);
            times[2].push(now() - start);
        }
        times.map(median)
    }

    /// The medians of the proved call in each of these, which take turns too.
    pub fn growth(halls: &[&Hall], turns: usize) -> Vec<f64> {
        let mut scratch = vec![0; SCRATCH];
        let mut times = vec![Vec::with_capacity(turns); halls.len()];
        for _ in 0..turns {
            for (hall, times) in halls.iter().zip(&mut times) {
                times.push(hall.time(&Archive, &mut scratch));
            }
        }
        times.into_iter().map(median).collect()
    }
}
