//! The calls of include/walkprint.h on bytes: records in, records out, and the
//! interface's own number given back. For programs that lend bytes of their own
//! or look at every one of them; the functions at the crate's root speak in
//! structs.
//!
//! The header asks of a caller that no pointer is NULL and that no lent slice
//! shares a byte with another. Rust's slices are so by themselves, so these
//! functions are safe.

/// What every search and question is handed. Where a record is shorter than its
/// struct, the request is an invalid one.
#[derive(Clone, Copy, Debug)]
pub struct Asked<'a> {
    pub window: &'a [u8],
    /// Cells, permissions, shapes and boxes.
    pub tables: [&'a [u8]; 4],
    /// Of a mob's search the two ends: the request's first 48 bytes.
    pub request: &'a [u8],
    pub body: &'a [u8],
}

/// The rooms that a search is lent, and the place of its answer.
#[derive(Debug)]
pub struct Lent<'a> {
    pub nodes: &'a mut [u8],
    pub front: &'a mut [u8],
    pub index: &'a mut [u8],
    pub out: &'a mut [u8],
    pub answer: &'a mut [u8],
}

/// Calls a function of the interface with its arguments in the header's order:
/// numbers, slices that are read, and slices that are lent. A slice is a pointer
/// and a length.
macro_rules! call {
    ($name:ident [$($done:expr,)*]) => {
        unsafe { $name($($done,)*) }
    };
    ($name:ident [$($done:expr,)*] number($($number:expr),*) $($rest:tt)*) => {
        call!($name [$($done,)* $($number,)*] $($rest)*)
    };
    ($name:ident [$($done:expr,)*] read($($slice:expr),*) $($rest:tt)*) => {
        call!($name [$($done,)* $($slice.as_ptr(), $slice.len(),)*] $($rest)*)
    };
    ($name:ident [$($done:expr,)*] lent($($slice:expr),*) $($rest:tt)*) => {
        call!($name [$($done,)* $($slice.as_mut_ptr(), $slice.len(),)*] $($rest)*)
    };
    ($name:ident $($arguments:tt)*) => {
        call!($name [] $($arguments)*)
    };
}

#[inline]
pub fn find_walk_path(asked: &Asked, lent: Lent) -> u64 {
    let [cells, permissions, shapes, boxes] = asked.tables;
    call!(walkprint_find_walk_path
        read(asked.window, cells, permissions, shapes, boxes, asked.request, asked.body)
        lent(lent.nodes, lent.front, lent.index, lent.out, lent.answer))
}

/// Of the tables the permissions are not read: the lent ones are filled.
#[inline]
pub fn find_path(policy: u64, jump_height: f64, flags: &[u8], asked: &Asked, permissions: &mut [u8], lent: Lent) -> u64 {
    let [cells, _, shapes, boxes] = asked.tables;
    call!(walkprint_find_path
        number(policy, jump_height)
        read(flags, asked.window, cells) lent(permissions) read(shapes, boxes, asked.request, asked.body)
        lent(lent.nodes, lent.front, lent.index, lent.out, lent.answer))
}

/// 100 where a search is begun, else 1 to 5. Of `out` only the length is looked
/// at.
#[inline]
pub fn begin_search(asked: &Asked, nodes: &mut [u8], front: &mut [u8], out: &[u8], progress: &mut [u8]) -> u64 {
    let [cells, permissions, shapes, boxes] = asked.tables;
    call!(walkprint_begin
        read(asked.window, cells, permissions, shapes, boxes, asked.request, asked.body)
        lent(nodes, front) read(out) lent(progress))
}

/// 0, 1 or 2 where the search has ended, 100 where it has not; 3, 1, 4, 5 or 12
/// where it did not go on, and then nothing is written. The counts are retained,
/// closed, pushed and dropped, as the last call gave them back.
#[inline]
pub fn continue_search(
    counts: [u64; 4],
    expansions: u64,
    asked: &Asked,
    nodes: &mut [u8],
    front: &mut [u8],
    out: &mut [u8],
    progress: &mut [u8],
) -> u64 {
    let [cells, permissions, shapes, boxes] = asked.tables;
    let [retained, closed, pushed, dropped] = counts;
    call!(walkprint_continue
        number(retained, closed, pushed, dropped, expansions)
        read(asked.window, cells, permissions, shapes, boxes, asked.request, asked.body)
        lent(nodes, front, out, progress))
}

/// 0 for a route, 3, 4, or the first reason why it is none: 101 to 109 and 111 to
/// 119. With a pair's (101 to 109, 117, 118) its later record's place, counted
/// from 0, is in the first 8 bytes of `place`.
#[inline]
pub fn walk_back(asked: &Asked, list: &[u8], place: &mut [u8]) -> u64 {
    let [cells, permissions, shapes, boxes] = asked.tables;
    call!(walkprint_walk_back
        read(asked.window, cells, permissions, shapes, boxes, asked.request, asked.body, list)
        lent(place))
}

/// 130 Walk, 131 Step, 132 Jump, 133 Drop, 101 to 109 for the first reason why
/// there is none, 1, 3 or 4.
#[inline]
pub fn edge(asked: &Asked, from: [f64; 3], to: [f64; 3]) -> u64 {
    let [cells, permissions, shapes, boxes] = asked.tables;
    call!(walkprint_edge
        read(asked.window, cells, permissions, shapes, boxes, asked.request, asked.body)
        number(from[0], from[1], from[2], to[0], to[1], to[2]))
}

/// The length of a list's whole records, as the body goes.
#[inline]
pub fn length(list: &[u8]) -> f64 {
    call!(walkprint_length read(list))
}

/// The tables are cells, permissions, shapes and boxes.
pub fn read_scene(bytes: &[u8], tables: [&mut [u8]; 4], made: &mut [u8]) -> u64 {
    let [cells, permissions, shapes, boxes] = tables;
    call!(walkprint_read_scene read(bytes) lent(cells, permissions, shapes, boxes, made))
}

pub fn jump_apex(power: f32, gravity: f64, height: &mut [u8]) -> u64 {
    call!(walkprint_jump_apex number(power, gravity) lent(height))
}

pub fn root(x: f64, root: &mut [u8]) -> u64 {
    call!(walkprint_root number(x) lent(root))
}

pub fn square_root(x: f64) -> f64 {
    call!(walkprint_square_root number(x))
}

/// How many bytes a number's words have; they are in the first bytes of `word`,
/// where they fit.
pub fn word(number: u64, word: &mut [u8]) -> u64 {
    call!(walkprint_word number(number) lent(word))
}

pub fn version() -> u64 {
    call!(walkprint_version)
}

unsafe extern "C" {
    fn walkprint_find_walk_path(
        window: *const u8,
        window_length: usize,
        cells: *const u8,
        cells_length: usize,
        permissions: *const u8,
        permissions_length: usize,
        shapes: *const u8,
        shapes_length: usize,
        boxes: *const u8,
        boxes_length: usize,
        request: *const u8,
        request_length: usize,
        body: *const u8,
        body_length: usize,
        nodes: *mut u8,
        nodes_length: usize,
        front: *mut u8,
        front_length: usize,
        index: *mut u8,
        index_length: usize,
        out: *mut u8,
        out_length: usize,
        answer: *mut u8,
        answer_length: usize,
    ) -> u64;

    fn walkprint_find_path(
        policy: u64,
        jump_height: f64,
        flags: *const u8,
        flags_length: usize,
        window: *const u8,
        window_length: usize,
        cells: *const u8,
        cells_length: usize,
        permissions: *mut u8,
        permissions_length: usize,
        shapes: *const u8,
        shapes_length: usize,
        boxes: *const u8,
        boxes_length: usize,
        ends: *const u8,
        ends_length: usize,
        body: *const u8,
        body_length: usize,
        nodes: *mut u8,
        nodes_length: usize,
        front: *mut u8,
        front_length: usize,
        index: *mut u8,
        index_length: usize,
        out: *mut u8,
        out_length: usize,
        answer: *mut u8,
        answer_length: usize,
    ) -> u64;

    fn walkprint_begin(
        window: *const u8,
        window_length: usize,
        cells: *const u8,
        cells_length: usize,
        permissions: *const u8,
        permissions_length: usize,
        shapes: *const u8,
        shapes_length: usize,
        boxes: *const u8,
        boxes_length: usize,
        request: *const u8,
        request_length: usize,
        body: *const u8,
        body_length: usize,
        nodes: *mut u8,
        nodes_length: usize,
        front: *mut u8,
        front_length: usize,
        out: *const u8,
        out_length: usize,
        progress: *mut u8,
        progress_length: usize,
    ) -> u64;

    fn walkprint_continue(
        retained: u64,
        closed: u64,
        pushed: u64,
        dropped: u64,
        expansions: u64,
        window: *const u8,
        window_length: usize,
        cells: *const u8,
        cells_length: usize,
        permissions: *const u8,
        permissions_length: usize,
        shapes: *const u8,
        shapes_length: usize,
        boxes: *const u8,
        boxes_length: usize,
        request: *const u8,
        request_length: usize,
        body: *const u8,
        body_length: usize,
        nodes: *mut u8,
        nodes_length: usize,
        front: *mut u8,
        front_length: usize,
        out: *mut u8,
        out_length: usize,
        progress: *mut u8,
        progress_length: usize,
    ) -> u64;

    fn walkprint_walk_back(
        window: *const u8,
        window_length: usize,
        cells: *const u8,
        cells_length: usize,
        permissions: *const u8,
        permissions_length: usize,
        shapes: *const u8,
        shapes_length: usize,
        boxes: *const u8,
        boxes_length: usize,
        request: *const u8,
        request_length: usize,
        body: *const u8,
        body_length: usize,
        list: *const u8,
        list_length: usize,
        place: *mut u8,
        place_length: usize,
    ) -> u64;

    fn walkprint_edge(
        window: *const u8,
        window_length: usize,
        cells: *const u8,
        cells_length: usize,
        permissions: *const u8,
        permissions_length: usize,
        shapes: *const u8,
        shapes_length: usize,
        boxes: *const u8,
        boxes_length: usize,
        request: *const u8,
        request_length: usize,
        body: *const u8,
        body_length: usize,
        from_x: f64,
        from_y: f64,
        from_z: f64,
        to_x: f64,
        to_y: f64,
        to_z: f64,
    ) -> u64;

    fn walkprint_length(list: *const u8, list_length: usize) -> f64;

    fn walkprint_read_scene(
        bytes: *const u8,
        bytes_length: usize,
        cells: *mut u8,
        cells_length: usize,
        permissions: *mut u8,
        permissions_length: usize,
        shapes: *mut u8,
        shapes_length: usize,
        boxes: *mut u8,
        boxes_length: usize,
        made: *mut u8,
        made_length: usize,
    ) -> u64;

    fn walkprint_jump_apex(power: f32, gravity: f64, height: *mut u8, height_length: usize) -> u64;

    fn walkprint_root(x: f64, root: *mut u8, root_length: usize) -> u64;

    fn walkprint_square_root(x: f64) -> f64;

    fn walkprint_word(number: u64, word: *mut u8, word_length: usize) -> u64;

    fn walkprint_version() -> u64;
}
