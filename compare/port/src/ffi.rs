//! The functions of the static library as C sees them (compare/capmarrow.h): each slice is a pointer and its length in words.

extern "C" {
    pub fn capmarrow_fresh(state: *mut u64, state_len: usize, first_id: u64, kind: u64, told: *mut u64, told_len: usize) -> u64;
    pub fn capmarrow_update(
        state: *mut u64, state_len: usize, batch: *const u64, batch_len: usize, removals: u64, moves: u64, told: *mut u64, told_len: usize,
    ) -> u64;
    pub fn capmarrow_consistent(state: *const u64, state_len: usize, told: *mut u64, told_len: usize) -> u64;
    pub fn capmarrow_kind_of(state: *const u64, state_len: usize, told: *mut u64, told_len: usize) -> u64;
    pub fn capmarrow_where_is(state: *const u64, state_len: usize, entity: u64, told: *mut u64, told_len: usize) -> u64;
    pub fn capmarrow_id_of(state: *const u64, state_len: usize, grid: u64, x: i32, y: i32, z: i32, told: *mut u64, told_len: usize) -> u64;
    pub fn capmarrow_neighbour_count(state: *const u64, state_len: usize, grid: u64, x: i32, y: i32, z: i32, told: *mut u64, told_len: usize) -> u64;
    pub fn capmarrow_group(state: *const u64, state_len: usize, id: u64, told: *mut u64, told_len: usize) -> u64;
    pub fn capmarrow_ids(state: *const u64, state_len: usize, answer: *mut u64, answer_len: usize, told: *mut u64, told_len: usize) -> u64;
    pub fn capmarrow_newly_occupied(state: *const u64, state_len: usize, answer: *mut u64, answer_len: usize, told: *mut u64, told_len: usize) -> u64;
    pub fn capmarrow_newly_emptied(state: *const u64, state_len: usize, answer: *mut u64, answer_len: usize, told: *mut u64, told_len: usize) -> u64;
    pub fn capmarrow_entities_in(
        state: *const u64, state_len: usize, grid: u64, x: i32, y: i32, z: i32, answer: *mut u64, answer_len: usize, told: *mut u64, told_len: usize,
    ) -> u64;
    pub fn capmarrow_nearby(
        state: *const u64, state_len: usize, grid: u64, x: i32, y: i32, z: i32, answer: *mut u64, answer_len: usize, told: *mut u64, told_len: usize,
    ) -> u64;
    pub fn capmarrow_cube(
        state: *const u64, state_len: usize, grid: u64, x: i32, y: i32, z: i32, radius: u8, answer: *mut u64, answer_len: usize, told: *mut u64, told_len: usize,
    ) -> u64;
    pub fn capmarrow_flood(
        state: *const u64, state_len: usize, grid: u64, x: i32, y: i32, z: i32, deep: bool, depth: i32, budget: u64, answer: *mut u64, answer_len: usize, told: *mut u64,
        told_len: usize,
    ) -> u64;
    pub fn capmarrow_path(
        state: *const u64, state_len: usize, grid: u64, x: i32, y: i32, z: i32, to_grid: u64, to_x: i32, to_y: i32, to_z: i32, answer: *mut u64, answer_len: usize,
        told: *mut u64, told_len: usize,
    ) -> u64;
}
