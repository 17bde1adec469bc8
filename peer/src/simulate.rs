//! The divided run against the undivided run, request by request.

use crate::balance::{counts, Oracle};
use crate::descent::Descent;
use crate::generate::{self, Mesh, Size};
use crate::image::{self, ANSWER, SCRATCH, WORDS};
use crate::lent::{Core, OracleNumbers};
use crate::mesh::{self, whole_map};
use crate::message;
use crate::rng::Rng;
use crate::runs::{Request, Undivided};
use crate::value::{Block, No, Site, Viewers};
use std::collections::{BTreeMap, BTreeSet};

/// Longer than all messages of a round of 512 darts.
pub const OUTBOX: usize = 65_536;

/// A request, and the seed of the order in which release and the redirects run.
#[derive(Clone, Copy, PartialEq, Eq, Debug)]
pub struct Turn {
    pub request: Request,
    pub order: u64,
}

/// Both runs side by side. In the mesh every block has the rack's words; a viewer's memory are the first 2,056 of them, and
/// those behind are zero.
pub struct BothRuns {
    pub undivided: Undivided,
    pub mesh: Vec<u64>,
    viewers: Viewers,
    scratch: Vec<u64>,
    outbox: Vec<u8>,
    redirects: usize,
}

/// How two runs differ.
pub type Disagreement = String;

/// One call that ends a round.
enum Ending<'a> {
    Release,
    Redirect(&'a [u8]),
}

impl BothRuns {
    pub fn start(mesh: &Mesh) -> BothRuns {
        BothRuns {
            undivided: Undivided::start(&mesh.blocks, mesh.viewers),
            mesh: mesh.words(),
            viewers: mesh.viewers,
            scratch: vec![0; SCRATCH],
            outbox: vec![0; OUTBOX],
            redirects: 0,
        }
    }

    /// The memory of a block, and whose calls work on it.
    fn block(&mut self, number: u32) -> (Site, &mut [u64]) {
        let site = self.viewers.site(number as usize);
        let start = WORDS * number as usize;
        (site, &mut self.mesh[start..start + site.words()])
    }

    /// A complete round of the divided run: the number that refused it, or 0 when it finished.
    fn round(&mut self, core: &dyn Core, turn: Turn) -> Result<u32, Disagreement> {
        let Request { from, to, serial } = turn.request;
        let mut written = 0;
        let mut outbox = std::mem::take(&mut self.outbox);
        let (site, block) = self.block(from);
        let answer = core.send(site, block, u64::from(to), serial, &mut outbox, &mut written);
        let sent = outbox.get(..written as usize).map(<[u8]>::to_vec);
        self.outbox = outbox;
        if answer != 0 {
            return Ok(answer);
        }
        let sent = sent.ok_or("send says it wrote past the outbox")?;
        let messages = message::split(&sent).ok_or("what send wrote is no list of messages")?;
        let (transfer, updates) = messages.split_first().ok_or("send wrote nothing")?;
        let (site, block) = self.block(to);
        let answer = core.receive(site, block, transfer);
        if answer != 0 {
            return Ok(answer);
        }
        let mut endings: Vec<Ending> = updates.iter().map(|update| Ending::Redirect(update)).collect();
        endings.push(Ending::Release);
        Rng::new(turn.order).shuffle(&mut endings);
        for ending in endings {
            let answer = match ending {
                Ending::Release => {
                    let (site, block) = self.block(from);
                    core.release(site, block, u64::from(to), serial)
                }
                Ending::Redirect(update) => {
                    let relative = message::address(update).ok_or("an update has no address")?;
                    if relative as usize >= self.mesh.len() / WORDS {
                        return Err(format!("an update goes to block {relative}, outside the mesh"));
                    }
                    self.redirects += 1;
                    let (site, block) = self.block(relative);
                    core.redirect(site, block, update)
                }
            };
            if answer != 0 {
                return Err(format!("the cell was taken, yet the round does not finish: {answer}"));
            }
        }
        Ok(0)
    }

    /// Plays one request in both runs and compares all that demand 3 names; a refused one leaves every word as it was. The
    /// number of the divided run.
    pub fn step(&mut self, core: &dyn Core, turn: Turn) -> Result<u32, Disagreement> {
        let other = self.undivided.other_number(turn.request);
        let undivided = match self.undivided.step(turn.request) {
            Ok(()) => 0,
            Err(No(number)) => number,
        };
        let expected = match other {
            Some(_) if undivided != 11 => return Err(format!("the undivided run answers {undivided}, not 11")),
            Some(number) => number,
            None => undivided,
        };
        let before = (undivided != 0).then(|| self.mesh.clone());
        let answer = self.round(core, turn)?;
        if answer != expected {
            return Err(format!("the divided run answers {answer}, not {expected}; the undivided run {undivided}"));
        }
        if before.is_some_and(|before| before != self.mesh) {
            return Err(format!("refused by {answer}, yet a block has changed"));
        }
        self.compare(core)?;
        Ok(answer)
    }

    /// The blocks of the divided run.
    pub fn blocks(&self) -> Result<Vec<Block>, Disagreement> {
        let blocks = self.mesh.chunks_exact(WORDS).enumerate();
        blocks
            .map(|(number, words)| {
                let limits = self.viewers.site(number).limits();
                image::sound_block(words, limits).ok_or(format!("block {number} is not sound"))
            })
            .collect()
    }

    fn compare(&mut self, core: &dyn Core) -> Result<(), Disagreement> {
        let blocks = self.blocks()?;
        if let Err(No(number)) = mesh::check(&blocks) {
            return Err(format!("the mesh is not sound: {number}"));
        }
        let checked = core.check_mesh(&self.mesh, self.viewers, &mut self.scratch);
        if checked != 0 {
            return Err(format!("the mesh is sound, yet check_mesh answers {checked}"));
        }
        for block in &blocks {
            let held: BTreeSet<u32> = block.darts.keys().copied().collect();
            if held != self.undivided.darts_of(u32::from(block.number)) {
                return Err(format!("block {} has other cells than the undivided run", block.number));
            }
        }
        if whole_map(&blocks) != self.undivided.map {
            return Err("the whole maps differ".to_string());
        }
        Ok(())
    }

    /// A request, mostly one that may be served.
    pub fn draw(&self, rng: &mut Rng, last: Option<Request>) -> Turn {
        let count = self.mesh.len() / WORDS;
        let cells = &self.undivided.cells;
        let any = rng.below(count) as u32;
        let (mut from, mut serial) = (any, rng.bits() >> (32 + rng.below(32)));
        if !cells.is_empty() && !rng.one_in(40) {
            let mut place = rng.below(cells.len());
            if rng.one_in(8) {
                // Large cells are few, and their limits many.
                place = (0..cells.len()).max_by_key(|place| cells[*place].0.len()).unwrap_or(place);
            }
            let (darts, number) = &cells[place];
            serial = darts.iter().nth(rng.below(darts.len())).map_or(0, |dart| u64::from(*dart));
            from = *number;
        }
        if let Some(last) = last.filter(|_| rng.one_in(5)) {
            // The same cell again: on, or straight back.
            serial = last.serial;
            from = last.to;
        }
        if rng.one_in(16) {
            from = rng.below(count) as u32;
        }
        let mut to = rng.below(count) as u32;
        if to == from && !rng.one_in(8) {
            to = (to + 1) % count as u32;
        }
        if rng.one_in(60) {
            serial = [0, u64::from(u32::MAX), 1 << 32, serial | 1 << 32, u64::MAX][rng.below(5)];
        }
        Turn { request: Request { from, to, serial }, order: rng.bits() }
    }
}

/// Plays turns from a mesh; the place and kind of the first disagreement.
pub fn play(core: &dyn Core, mesh: &Mesh, turns: &[Turn]) -> Result<(), (usize, Disagreement)> {
    let mut runs = BothRuns::start(mesh);
    for (place, turn) in turns.iter().enumerate() {
        runs.step(core, *turn).map_err(|what| (place, what))?;
    }
    Ok(())
}

/// Drops turns as long as the runs still disagree.
pub fn shrink(core: &dyn Core, mesh: &Mesh, turns: &[Turn]) -> (Vec<Turn>, Disagreement) {
    let mut kept = turns.to_vec();
    let mut what = String::new();
    if let Err((place, first)) = play(core, mesh, &kept) {
        kept.truncate(place + 1);
        what = first;
    }
    let mut place = kept.len();
    while place > 0 {
        place -= 1;
        let mut fewer = kept.clone();
        fewer.remove(place);
        if let Err((end, found)) = play(core, mesh, &fewer) {
            fewer.truncate(end + 1);
            kept = fewer;
            what = found;
            place = place.min(kept.len());
        }
    }
    (kept, what)
}

/// What a simulation counted.
#[derive(Default, Debug)]
pub struct Tally {
    pub meshes: usize,
    pub requests: usize,
    /// Requests by answer; 0 is served.
    pub answers: BTreeMap<u32, usize>,
    /// Redirects played.
    pub redirects: usize,
    /// Served and refused rounds from the rack into a viewer, out of one, and between two.
    pub with_viewers: [[usize; 2]; 3],
}

impl Tally {
    fn add(&mut self, request: Request, viewers: Viewers, answer: u32) {
        *self.answers.entry(answer).or_default() += 1;
        let way = match [request.from, request.to].map(|number| viewers.site(number as usize)) {
            [Site::Rack, Site::Rack] => return,
            [Site::Rack, Site::Viewer] => 0,
            [Site::Viewer, Site::Rack] => 1,
            [Site::Viewer, Site::Viewer] => 2,
        };
        self.with_viewers[way][usize::from(answer != 0)] += 1;
    }
}

/// A disagreement with the smallest case found.
pub struct Failure {
    pub what: Disagreement,
    /// `mesh_of_seed` of this gives the mesh.
    pub mesh_seed: u64,
    pub mesh: Mesh,
    pub turns: Vec<Turn>,
}

/// The mesh of a seed: most small, some larger, a few with full blocks.
pub fn mesh_of_seed(seed: u64) -> (Rng, Mesh, usize) {
    let mut rng = Rng::new(seed);
    let (size, turns) = match rng.below(120) {
        0..=2 => (Size::Large, 30),
        3..=20 => (Size::Medium, 60),
        _ => (Size::Small, 70),
    };
    let mesh = match size {
        Size::Large => {
            let count = rng.between(2, 4);
            generate::mesh_of(&mut rng, size, count)
        }
        _ => generate::mesh(&mut rng, size),
    };
    (rng, mesh, turns)
}

/// N requests over many meshes.
pub fn simulate(core: &dyn Core, seed: u64, requests: usize) -> Result<Tally, Box<Failure>> {
    let mut tally = Tally::default();
    let mut mesh_seed = seed.wrapping_mul(0x1_0000_0000);
    while tally.requests < requests {
        mesh_seed = mesh_seed.wrapping_add(1);
        let (mut rng, mesh, turns) = mesh_of_seed(mesh_seed);
        let mut runs = BothRuns::start(&mesh);
        if let Err(what) = runs.compare(core) {
            return Err(Box::new(Failure { what, mesh_seed, mesh, turns: Vec::new() }));
        }
        tally.meshes += 1;
        let mut played: Vec<Turn> = Vec::new();
        for _ in 0..turns.min(requests - tally.requests) {
            let turn = runs.draw(&mut rng, played.last().map(|turn| turn.request));
            played.push(turn);
            match runs.step(core, turn) {
                Ok(answer) => tally.add(turn.request, mesh.viewers, answer),
                Err(_) => {
                    let (turns, what) = shrink(core, &mesh, &played);
                    return Err(Box::new(Failure { what, mesh_seed, mesh, turns }));
                }
            }
            tally.requests += 1;
        }
        tally.redirects += runs.redirects;
    }
    Ok(tally)
}

/// Plays next moves until the mesh is level or blocked, and holds them to the laws of the rule; how many there were.
pub fn balance(core: &dyn Core, mesh: &Mesh, oracle: &OracleNumbers) -> Result<usize, Disagreement> {
    let picks = oracle.oracle().filter(Oracle::is_right).ok_or("the oracle is not right")?;
    let mut runs = BothRuns::start(mesh);
    let mut descent = Descent::start(counts(&mesh.blocks, &picks));
    let mut moves = 0;
    loop {
        let mut answer = [0; ANSWER];
        let number = core.next_move(&runs.mesh, runs.viewers, oracle, &mut runs.scratch, &mut answer);
        if number != 0 {
            return Err(format!("next_move is refused by {number}"));
        }
        if !descent.is_told(&answer) {
            return Err(format!("next_move tells another mean or surplus: {answer:?}"));
        }
        let [kind, donor, recipient, serial] = [answer[0], answer[1], answer[2], answer[3]];
        if kind != 2 {
            descent.end(kind == 0)?;
            return Ok(moves);
        }
        let request = Request { from: donor as u32, to: recipient as u32, serial };
        match runs.step(core, Turn { request, order: moves as u64 })? {
            0 => moves += 1,
            refused => return Err(format!("the next move is refused by {refused}")),
        }
        descent.step(donor as usize, recipient as usize, counts(&runs.blocks()?, &picks))?;
    }
}
