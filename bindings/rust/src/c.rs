//! The functions of `include/tool_log.h` as they are, which also says what each answers and what a caller owes it. The safe calls of the crate are
//! what to use.

extern "C" {
    pub fn tl_examine(log: *const u8, log_len: usize, room: usize, refusal: *mut [u64; 3]) -> u32;
    pub fn tl_report(log: *const u8, log_len: usize, buf: *mut u8, buf_len: usize) -> usize;
    pub fn tl_module_state_times(log: *const u8, log_len: usize, module: usize, times: *mut [u64; 6], refusal: *mut [u64; 3]) -> u32;
    pub fn tl_tool_state_times(log: *const u8, log_len: usize, times: *mut [u64; 6], refusal: *mut [u64; 3]) -> u32;
    pub fn tl_module_quantities(log: *const u8, log_len: usize, module: usize, quantities: *mut [u64; 5], refusal: *mut [u64; 3]) -> u32;
    pub fn tl_tool_quantities(log: *const u8, log_len: usize, quantities: *mut [u64; 5], refusal: *mut [u64; 3]) -> u32;
    pub fn tl_module_figures(
        log: *const u8,
        log_len: usize,
        module: usize,
        figures: *mut [f64; 6],
        based: *mut [u8; 4],
        refusal: *mut [u64; 3],
    ) -> u32;
    pub fn tl_tool_figures(log: *const u8, log_len: usize, figures: *mut [f64; 6], based: *mut [u8; 4], refusal: *mut [u64; 3]) -> u32;
    pub fn tl_module_losses(log: *const u8, log_len: usize, module: usize, losses: *mut [u64; 5], refusal: *mut [u64; 3]) -> u32;
    pub fn tl_tool_losses(log: *const u8, log_len: usize, losses: *mut [u64; 5], refusal: *mut [u64; 3]) -> u32;
    pub fn tl_credited_units(log: *const u8, log_len: usize, units: *mut [u64; 512], refusal: *mut [u64; 3]) -> u32;
    pub fn tl_credited_listing(log: *const u8, log_len: usize, buf: *mut u8, buf_len: usize, length: *mut [u64; 1], refusal: *mut [u64; 3]) -> u32;
    pub fn tl_standard_in_force(
        log: *const u8,
        log_len: usize,
        module: usize,
        recipe: usize,
        time: u64,
        standard: *mut [u64; 2],
        refusal: *mut [u64; 3],
    ) -> u32;
    pub fn tl_supplemental(
        log: *const u8,
        log_len: usize,
        benchmarks: *const u8,
        benchmarks_len: usize,
        figures: *mut [u64; 4],
        refusal: *mut [u64; 3],
    ) -> u32;
    pub fn tl_put_header(
        buf: *mut u8,
        buf_len: usize,
        at: usize,
        period: u64,
        modules: u64,
        states: u64,
        standards: u64,
        units: u64,
        next: *mut [u64; 1],
        refusal: *mut [u64; 3],
    ) -> u32;
    pub fn tl_put_state(
        buf: *mut u8,
        buf_len: usize,
        at: usize,
        module: u64,
        code: u64,
        time: u64,
        next: *mut [u64; 1],
        refusal: *mut [u64; 3],
    ) -> u32;
    pub fn tl_put_standard(
        buf: *mut u8,
        buf_len: usize,
        at: usize,
        module: u64,
        recipe: u64,
        start: u64,
        theoretical: u64,
        next: *mut [u64; 1],
        refusal: *mut [u64; 3],
    ) -> u32;
    pub fn tl_put_unit(
        buf: *mut u8,
        buf_len: usize,
        at: usize,
        module: u64,
        recipe: u64,
        time: u64,
        actual: u64,
        effective: u64,
        next: *mut [u64; 1],
        refusal: *mut [u64; 3],
    ) -> u32;
    pub fn tl_finish_log(buf: *const u8, buf_len: usize, at: usize, refusal: *mut [u64; 3]) -> u32;
    pub fn tl_join(
        first: *const u8,
        first_len: usize,
        second: *const u8,
        second_len: usize,
        buf: *mut u8,
        buf_len: usize,
        length: *mut [u64; 1],
        refusal: *mut [u64; 3],
    ) -> u32;
    pub fn tl_pack(buf: *mut u8, buf_len: usize, length: *mut [u64; 1], refusal: *mut [u64; 3]) -> u32;
}
