//! A script that shows a difference is made smaller as long as it still shows one.

use crate::compare::play;
use crate::offer::{Offer, Script};
use crate::questions::Asking;
use capmarrow::Batch;

/// A script that shows a difference when so much is asked, cut behind the batch that shows it, and what differs.
struct Failing {
    script: Script,
    asking: Asking,
    why: String,
}

fn fails(script: &Script, asking: Asking) -> Option<Failing> {
    let (k, why) = play(script, asking).err()?;
    let mut script = script.clone();
    script.offers.truncate(k + 1);
    Some(Failing { script, asking, why })
}

/// A script without some of its batches.
fn without(script: &Script, from: usize, count: usize) -> Script {
    let mut next = script.clone();
    next.offers.drain(from..(from + count).min(script.offers.len()));
    next
}

/// The scripts next to one that lack a run of batches, longest runs first.
fn fewer_batches(script: &Script) -> impl Iterator<Item = Script> + '_ {
    let n = script.offers.len();
    let runs = std::iter::successors(Some(n / 2), |run| (*run > 1).then_some(run / 2)).filter(|run| *run > 0);
    runs.flat_map(move |run| (0..n).step_by(run).map(move |from| without(script, from, run)))
}

/// The scripts next to one that lack some events of one batch.
fn fewer_events(script: &Script) -> impl Iterator<Item = Script> + '_ {
    let plain = script.offers.iter().enumerate().filter(|(_, offer)| offer.number() == 0);
    plain.flat_map(move |(k, offer)| {
        without_events(&offer.batch()).into_iter().map(move |batch| {
            let mut next = script.clone();
            next.offers[k] = Offer::of(&batch);
            next
        })
    })
}

/// A batch without its first half, without its second, and without each of its first events.
fn without_events(batch: &Batch) -> Vec<Batch> {
    let (r, m) = (batch.removals.len(), batch.moves.len());
    let mut next = Vec::new();
    let mut part = |removals: Vec<u64>, moves: Vec<(u64, capmarrow::Cell)>| next.push(Batch { removals, moves });
    if r + m > 8 {
        part(batch.removals[r / 2..].to_vec(), batch.moves[m / 2..].to_vec());
        part(batch.removals[..r / 2].to_vec(), batch.moves[..m / 2].to_vec());
    }
    for i in 0..r.min(64) {
        part([&batch.removals[..i], &batch.removals[i + 1..]].concat(), batch.moves.clone());
    }
    for i in 0..m.min(64) {
        part(batch.removals.clone(), [&batch.moves[..i], &batch.moves[i + 1..]].concat());
    }
    next
}

/// The smallest script found, and what differs there. A difference that only the sampled questions showed is given as it is.
pub fn smallest(script: &Script, why: String) -> (Script, String) {
    let Some(mut found) = fails(script, Asking::Nothing).or_else(|| fails(script, Asking::All)) else {
        return (script.clone(), why);
    };
    loop {
        let next = fewer_batches(&found.script).chain(fewer_events(&found.script)).find_map(|s| fails(&s, found.asking));
        match next {
            Some(next) => found = next,
            None => return (found.script, found.why),
        }
    }
}
