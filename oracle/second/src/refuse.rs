//! The five refusals that come before anything else.

use oracle_job::{Job, codes};

/// The first of the codes 1 to 5 that applies to the job.
pub fn refuse(job: &Job) -> Option<u32> {
    if job.swap == 0 {
        return Some(codes::LIMIT);
    }
    if job.start.len() >= 1_025 {
        return Some(codes::START);
    }
    if job.target.len() >= 1_025 {
        return Some(codes::TARGET);
    }
    if job.spill.len() < job.filled {
        return Some(codes::FILLED);
    }
    match u32::try_from(job.spill.len()).ok().and_then(|slots| job.first.checked_add(slots)) {
        Some(_) => None,
        None => Some(codes::SLOTS),
    }
}
