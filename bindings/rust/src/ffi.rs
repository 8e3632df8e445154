//! The calls of include/walls_c.h, which says what each needs of its caller, and how many words they give and take. A slice crosses as a
//! pointer and a length. The comparison and the speed drivers include this file, so that the calls are declared once.

/// The words of a check's answer.
pub const CHECK_WORDS: usize = 300;
/// The words of a route test's answer.
pub const TEST_WORDS: usize = 6;
/// The words of a query with 32 buildings.
pub const QUERY_WORDS: usize = 268;
/// The words of a reading's answer, in which the query's stand last.
pub const READ_WORDS: usize = 9 + QUERY_WORDS;

extern "C" {
    /// Checks a wall on a map, given as plain arguments.
    pub fn walls_c_check(
        width: u32, height: u32, cells: *const u8, cells_len: usize, obstacles: *const i32, obstacles_len: usize, query: *const u64, query_len: usize, buildings: usize,
        issues: *mut u32, issues_len: usize, base: *mut u32, base_len: usize, planned: *mut u32, planned_len: usize, marks: *mut u8, marks_len: usize, parents: *mut u32,
        parents_len: usize, queue: *mut u32, queue_len: usize, route: *mut u32, route_len: usize, answer: *mut u64, answer_len: usize,
    ) -> u64;

    /// Reads a packed query, and checks it.
    pub fn walls_c_check_packed(
        packed: *const u8, packed_len: usize, cells: *mut u8, cells_len: usize, obstacles: *mut i32, obstacles_len: usize, issues: *mut u32, issues_len: usize, base: *mut u32,
        base_len: usize, planned: *mut u32, planned_len: usize, marks: *mut u8, marks_len: usize, parents: *mut u32, parents_len: usize, queue: *mut u32, queue_len: usize,
        route: *mut u32, route_len: usize, answer: *mut u64, answer_len: usize,
    ) -> u64;

    /// Tests whether a list of route point words passes from start to end after the plan.
    pub fn walls_c_test_route(
        width: u32, height: u32, cells: *const u8, cells_len: usize, obstacles: *const i32, obstacles_len: usize, query: *const u64, query_len: usize, buildings: usize,
        list: *const u32, list_len: usize, base: *mut u32, base_len: usize, planned: *mut u32, planned_len: usize, marks: *mut u8, marks_len: usize, answer: *mut u64,
        answer_len: usize,
    ) -> u64;

    /// Reads a packed query: its cells, the words of its obstacles, and the rest into the answer.
    pub fn walls_c_read_packed(
        packed: *const u8, packed_len: usize, cells: *mut u8, cells_len: usize, obstacles: *mut i32, obstacles_len: usize, answer: *mut u64, answer_len: usize,
    ) -> u64;
}
