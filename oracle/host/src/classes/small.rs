//! Every job with few values: 3 different ones at most, stacks up to 4 high,
//! 0 or 1 stored (2 where there are at most six values in all), S 1 to 3, D 0 to
//! 3; one job for all renamings, those with the fewest values first.

use super::{Take, bare, lend};
use crate::rng::Rng;

pub const COUNT: u64 = 127_368;

pub fn all(rng: &mut Rng, _count: u64, take: Take) {
    for total in 0..=9_usize {
        for stored in 0..=if total <= 6 { 2 } else { 1 } {
            for high in 0..=4 {
                let Some(target) = total.checked_sub(stored + high) else { continue };
                if target > 4 {
                    continue;
                }
                named(total, &mut |values| split(rng, values, high, stored, take));
            }
        }
    }
}

fn split(rng: &mut Rng, values: &[u32], high: usize, stored: usize, take: Take) {
    let (start, rest) = values.split_at(high);
    let (spilled, target) = rest.split_at(stored);
    for swap in 1..=3 {
        for dup in 0..=3 {
            let mut job = bare(start.into(), spilled.into(), target.into(), swap, dup);
            lend(rng, &mut job, stored + 12, 96);
            take(job);
        }
    }
}

/// All lists of this length over 3 values in which a new value is always the
/// next unused number.
fn named(length: usize, take: &mut dyn FnMut(&[u32])) {
    fn extend(list: &mut Vec<u32>, length: usize, used: u32, take: &mut dyn FnMut(&[u32])) {
        if list.len() == length {
            return take(list);
        }
        for value in 1..=(used + 1).min(3) {
            list.push(value);
            extend(list, length, used.max(value), take);
            list.pop();
        }
    }
    extend(&mut Vec::new(), length, 0, take);
}
