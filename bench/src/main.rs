//! The public calls on nearly full blocks: the archive's version beside the plain one and a copy of what it works on, and how each grows. All take
//! turns in one run; what is printed, as Markdown, are medians of processor time. A word (block, viewer, mesh, growth) prints one table alone.

mod clock;
mod desk;
mod meshes;
mod table;

use desk::{Desk, CALLS, ROUND};
use meshes::Hall;
use peer::value::Site;
use table::{growth_head, growth_row, head, row, Limit};

/// A prime number of blocks with shuffled serials, so that each call has each block: one alone the branch prediction learns by heart.
const SHUFFLES: u64 = 31;

fn serials(shuffled: bool) -> &'static str {
    if shuffled {
        "shuffled"
    } else {
        "in order"
    }
}

fn calls_of_a_block() {
    head("call", "a copy of the block");
    for large in [false, true] {
        for shuffled in [false, true] {
            let desk = Desk::rounds(Site::Rack, large, shuffled, 4080);
            for call in CALLS.iter().filter(|call| call.of_a_cell || !large) {
                let cell = match (call.of_a_cell, large) {
                    (false, _) => "",
                    (true, false) => ", 24-dart cell",
                    (true, true) => ", 512-dart cell",
                };
                let limit = match (call.name, large) {
                    ("question 2", _) => Limit::plain(1.5).copies(8.0),
                    (ROUND, false) => Limit::plain(1.5),
                    (ROUND, true) => Limit::plain(1.7),
                    ("write pages" | "read pages", _) => Limit::plain(2.0),
                    _ => Limit::none(),
                };
                row(&format!("{}{cell}", call.name), serials(shuffled), desk.times(call, 1501), limit);
            }
        }
    }
    for (what, labels) in desk::LABELS {
        for shuffled in [false, true] {
            let desk = Desk::critical(*labels, shuffled);
            let limit = Limit::plain(1.5).copies(8.0);
            row(&format!("question 2, {what}"), serials(shuffled), desk.times(&CALLS[0], 1501), limit);
        }
    }
    // All critical, labels of few digits and of ten.
    for (what, labels) in &desk::LABELS[..2] {
        for shuffled in [false, true] {
            let desk = Desk::critical(*labels, shuffled);
            for call in CALLS.iter().filter(|call| call.name.ends_with("pages")) {
                let times = desk.times(call, 1501);
                row(&format!("{}, {what}", call.name), serials(shuffled), times, Limit::plain(2.0));
            }
        }
    }
}

/// Rounds go from viewer to viewer.
fn calls_of_a_viewer() {
    head("call", "a copy of the block");
    for large in [false, true] {
        for shuffled in [false, true] {
            let desk = Desk::rounds(Site::Viewer, large, shuffled, 256);
            for call in CALLS.iter().filter(|call| call.of_a_cell || !large) {
                let cell = match (call.of_a_cell, large) {
                    (false, _) => "",
                    (true, false) => ", 24-dart cell",
                    (true, true) => ", 64-dart cell",
                };
                row(&format!("{}{cell}", call.name), serials(shuffled), desk.times(call, 1501), Limit::none());
            }
        }
    }
}

fn calls_of_a_mesh() {
    head("call", "a copy of the mesh");
    for shuffled in [false, true] {
        for hall in Hall::full(shuffled) {
            row(&hall.name, serials(shuffled), hall.times(101), hall.limit());
        }
    }
}

fn growth() {
    growth_head();
    let sizes = [255, 510, 1020, 2040, 4080];
    for large in [false, true] {
        // A cell of 512 darts and what is sewn to it is in no smaller block.
        let sizes = if large { &sizes[2..] } else { &sizes[..] };
        let desks: Vec<Desk> = sizes.iter().map(|darts| Desk::rounds(Site::Rack, large, true, *darts)).collect();
        for call in CALLS.iter().filter(|call| call.of_a_cell || !large) {
            let cell = if !call.of_a_cell {
                ""
            } else if large {
                ", 512-dart cell"
            } else {
                ", 24-dart cell"
            };
            growth_row(&format!("{}{cell}", call.name), &Desk::growth(&desks, call, 1001));
        }
    }
    let slabs = [[2, 5], [3, 7], [6, 7], [5, 17], [10, 17]];
    let halls: Vec<Vec<Hall>> = slabs.iter().map(|slab| Hall::growing(*slab)).collect();
    for at in 0..halls[0].len() {
        let of_all: Vec<&Hall> = halls.iter().map(|halls| &halls[at]).collect();
        growth_row(&of_all[0].name, &Hall::growth(&of_all, 101));
    }
}

fn main() {
    let only = std::env::args().nth(1);
    let wanted = |table: &str| only.as_deref().is_none_or(|only| only == table);
    if wanted("block") {
        println!("Blocks of about 4,080 darts.\n");
        calls_of_a_block();
    }
    if wanted("viewer") {
        println!("\nA viewer's calls on its blocks of 256 darts.\n");
        calls_of_a_viewer();
    }
    if wanted("mesh") {
        println!("\nMeshes of sixteen such blocks.\n");
        calls_of_a_mesh();
    }
    if wanted("growth") {
        println!("\nThe proved calls in µs on blocks, or meshes of sixteen blocks, of about so many darts; serials shuffled.\n");
        growth();
    }
}
