//! The calls on words. Each gives back the scope's number; what else is told stands in `told`, of three words or more: where the number
//! is 0, what is said at each call (found first); after 8: 0, the words needed, 0; after any other: 0, the place of the fault, its axis
//! (compare/capmarrow.h has what the place is for each number). A `told` that is too short gives 1, and nothing is written.
//!
//! A slice of Rust is the pointer and the length that the library asks for, two slices lent at once never overlap where one is
//! written, and the library's proofs say that it reads and writes nothing else: so each `unsafe` below holds for every argument.

use crate::ffi;
use crate::Cell;

/// A fresh state of a kind, 6, 18 or 26, in the first words of a slice. Told: 0, 0, 0.
pub fn fresh(state: &mut [u64], first_id: u64, kind: u64, told: &mut [u64]) -> u64 {
    unsafe { ffi::capmarrow_fresh(state.as_mut_ptr(), state.len(), first_id, kind, told.as_mut_ptr(), told.len()) }
}

/// A batch: removals, one word each, then moves, five words each (entity, grid, x, y, z). Told: 0, 0, 0.
pub fn update(state: &mut [u64], batch: &[u64], removals: u64, moves: u64, told: &mut [u64]) -> u64 {
    unsafe { ffi::capmarrow_update(state.as_mut_ptr(), state.len(), batch.as_ptr(), batch.len(), removals, moves, told.as_mut_ptr(), told.len()) }
}

/// Whether a state is consistent. Told: 0, 0, 0.
pub fn consistent(state: &[u64], told: &mut [u64]) -> u64 {
    unsafe { ffi::capmarrow_consistent(state.as_ptr(), state.len(), told.as_mut_ptr(), told.len()) }
}

/// Told: 1, the kind.
pub fn kind_of(state: &[u64], told: &mut [u64]) -> u64 {
    unsafe { ffi::capmarrow_kind_of(state.as_ptr(), state.len(), told.as_mut_ptr(), told.len()) }
}

/// Told: found, grid, x, y, z.
pub fn where_is(state: &[u64], entity: u64, told: &mut [u64]) -> u64 {
    unsafe { ffi::capmarrow_where_is(state.as_ptr(), state.len(), entity, told.as_mut_ptr(), told.len()) }
}

/// Told: found, id.
pub fn id_of(state: &[u64], cell: Cell, told: &mut [u64]) -> u64 {
    unsafe { ffi::capmarrow_id_of(state.as_ptr(), state.len(), cell.grid, cell.x, cell.y, cell.z, told.as_mut_ptr(), told.len()) }
}

/// Told: found, how many.
pub fn neighbour_count(state: &[u64], c: Cell, told: &mut [u64]) -> u64 {
    unsafe { ffi::capmarrow_neighbour_count(state.as_ptr(), state.len(), c.grid, c.x, c.y, c.z, told.as_mut_ptr(), told.len()) }
}

/// Told: found, grid, cell count, entity count, low x, y, z, high x, y, z.
pub fn group(state: &[u64], id: u64, told: &mut [u64]) -> u64 {
    unsafe { ffi::capmarrow_group(state.as_ptr(), state.len(), id, told.as_mut_ptr(), told.len()) }
}

/// Told: found, count.
pub fn ids(state: &[u64], answer: &mut [u64], told: &mut [u64]) -> u64 {
    unsafe { ffi::capmarrow_ids(state.as_ptr(), state.len(), answer.as_mut_ptr(), answer.len(), told.as_mut_ptr(), told.len()) }
}

/// Told: found, count.
pub fn newly_occupied(state: &[u64], answer: &mut [u64], told: &mut [u64]) -> u64 {
    unsafe { ffi::capmarrow_newly_occupied(state.as_ptr(), state.len(), answer.as_mut_ptr(), answer.len(), told.as_mut_ptr(), told.len()) }
}

/// Told: found, count.
pub fn newly_emptied(state: &[u64], answer: &mut [u64], told: &mut [u64]) -> u64 {
    unsafe { ffi::capmarrow_newly_emptied(state.as_ptr(), state.len(), answer.as_mut_ptr(), answer.len(), told.as_mut_ptr(), told.len()) }
}

/// Told: found, count.
pub fn entities_in(state: &[u64], c: Cell, answer: &mut [u64], told: &mut [u64]) -> u64 {
    unsafe { ffi::capmarrow_entities_in(state.as_ptr(), state.len(), c.grid, c.x, c.y, c.z, answer.as_mut_ptr(), answer.len(), told.as_mut_ptr(), told.len()) }
}

/// Told: found, count.
pub fn nearby(state: &[u64], c: Cell, answer: &mut [u64], told: &mut [u64]) -> u64 {
    unsafe { ffi::capmarrow_nearby(state.as_ptr(), state.len(), c.grid, c.x, c.y, c.z, answer.as_mut_ptr(), answer.len(), told.as_mut_ptr(), told.len()) }
}

/// Told: found, count.
pub fn cube(state: &[u64], c: Cell, radius: u8, answer: &mut [u64], told: &mut [u64]) -> u64 {
    unsafe { ffi::capmarrow_cube(state.as_ptr(), state.len(), c.grid, c.x, c.y, c.z, radius, answer.as_mut_ptr(), answer.len(), told.as_mut_ptr(), told.len()) }
}

/// Told: found, number, whether that was all.
pub fn flood(state: &[u64], c: Cell, depth: Option<i32>, budget: u64, answer: &mut [u64], told: &mut [u64]) -> u64 {
    let (deep, most) = (depth.is_some(), depth.unwrap_or(0));
    unsafe {
        ffi::capmarrow_flood(state.as_ptr(), state.len(), c.grid, c.x, c.y, c.z, deep, most, budget, answer.as_mut_ptr(), answer.len(), told.as_mut_ptr(), told.len())
    }
}

/// Told: found, count.
pub fn path(state: &[u64], from: Cell, to: Cell, answer: &mut [u64], told: &mut [u64]) -> u64 {
    unsafe {
        ffi::capmarrow_path(
            state.as_ptr(), state.len(), from.grid, from.x, from.y, from.z, to.grid, to.x, to.y, to.z, answer.as_mut_ptr(), answer.len(), told.as_mut_ptr(), told.len(),
        )
    }
}
