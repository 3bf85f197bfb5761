//! The C interface, as `include/seats.h` has it. A slice is a pointer and a length.
extern "C" {
    pub fn seats_run(
        file: *const u8,
        file_len: usize,
        blocked: *const u8,
        blocked_len: usize,
        seats: *const u8,
        seats_len: usize,
        out: *mut u8,
        out_len: usize,
    ) -> i64;
    pub fn seats_run_loads(
        file: *const u8,
        file_len: usize,
        blocked: *const u8,
        blocked_len: usize,
        seats: *const u8,
        seats_len: usize,
        out: *mut u8,
        out_len: usize,
        table: *mut u8,
        table_len: usize,
        work: *mut u8,
        work_len: usize,
    ) -> i64;
    pub fn seats_closest_points(
        file: *const u8,
        file_len: usize,
        x: f32,
        y: f32,
        deck: u32,
        blocked: *const u8,
        blocked_len: usize,
        out: *mut u8,
        out_len: usize,
    ) -> i64;
    pub fn seats_closest_point(
        file: *const u8,
        file_len: usize,
        x: f32,
        y: f32,
        deck: u32,
        blocked: *const u8,
        blocked_len: usize,
        out: *mut u8,
        out_len: usize,
    ) -> i64;
    pub fn seats_closest_point_towards(
        file: *const u8,
        file_len: usize,
        x: f32,
        y: f32,
        towards_x: f32,
        towards_y: f32,
        deck: u32,
        out: *mut u8,
        out_len: usize,
    ) -> i64;
    pub fn seats_height(file: *const u8, file_len: usize, x: f32, y: f32, polygon: u32, out: *mut u8, out_len: usize) -> i64;
    pub fn seats_point_location(file: *const u8, file_len: usize, x: f32, y: f32, deck: u32) -> i64;
    pub fn seats_point_layer(file: *const u8, file_len: usize, x: f32, y: f32, deck: u32, out: *mut u8, out_len: usize) -> i64;
    pub fn seats_candidate_polygons(
        file: *const u8,
        file_len: usize,
        x: f32,
        y: f32,
        deck: u32,
        polygon: u32,
        blocked: *const u8,
        blocked_len: usize,
        out: *mut u8,
        out_len: usize,
        work: *mut u8,
        work_len: usize,
    ) -> i64;
    pub fn seats_islands(file: *const u8, file_len: usize, deck: u32, out: *mut u8, out_len: usize, work: *mut u8, work_len: usize) -> i64;
    pub fn seats_stitch_points(file: *const u8, file_len: usize, out: *mut u8, out_len: usize) -> i64;
    pub fn seats_remove_stitches(file: *const u8, file_len: usize, out: *mut u8, out_len: usize) -> i64;
    pub fn seats_remove_stitches_to_layer(file: *const u8, file_len: usize, layer: u8, out: *mut u8, out_len: usize) -> i64;
}
