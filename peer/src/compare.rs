//! Two cores on the same drawn cases: answer and every lent byte.

use crate::cases::{self, Call};
use crate::damage;
use crate::generate::{self, Size};
use crate::lent::Core;
use crate::rng::Rng;
use crate::vectors;
use std::collections::BTreeMap;

/// How often each call gave each answer.
pub type Table = BTreeMap<(&'static str, u32), usize>;

/// Compares two cores on the cases about limits and on at least so many drawn cases of these calls; the first difference ends it.
pub fn compare(one: &dyn Core, two: &dyn Core, calls: &[Call], seed: u64, wanted: usize) -> Result<Table, String> {
    let mut table = Table::new();
    let mut count = 0;
    for &call in calls {
        for (place, case) in vectors::limits(call).iter().enumerate() {
            let answer = cases::compare(case, one, two).map_err(|what| format!("case {place} about limits: {what}"))?;
            *table.entry((call.name(), answer)).or_default() += 1;
        }
    }
    let mut round = 0;
    while count < wanted {
        round += 1;
        let mesh_seed = seed.wrapping_mul(0x1_0000_0000).wrapping_add(round);
        let mut rng = Rng::new(mesh_seed);
        let size = match rng.below(100) {
            0 => Size::Large,
            1..=4 => Size::Medium,
            5..=50 => Size::Small,
            _ => Size::Tiny,
        };
        let mesh = generate::mesh(&mut rng, size);
        // Calls on one block are many and cheap, calls on a mesh few and dear.
        for &call in calls {
            for (way, case) in damage::batch(&mut rng, call, &mesh) {
                if matches!(size, Size::Large | Size::Medium) && !rng.one_in(5) {
                    continue;
                }
                let answer =
                    cases::compare(&case, one, two).map_err(|what| format!("mesh seed {mesh_seed}, {way}: {what}"))?;
                *table.entry((call.name(), answer)).or_default() += 1;
                count += 1;
            }
        }
    }
    Ok(table)
}
