//! What include/bohrali.h declares.

extern "C" {
    pub fn bohrali_admit(chart: *const u8, chart_len: usize) -> i64;
    pub fn bohrali_distances(
        chart: *const u8,
        chart_len: usize,
        region: usize,
        out: *mut u8,
        out_len: usize,
    ) -> i64;
    pub fn bohrali_insert_edge(
        buffer: *mut u8,
        buffer_len: usize,
        chart_len: usize,
        receipt_length: usize,
        receipt_place: usize,
        from: usize,
        to: usize,
    ) -> i64;
    pub fn bohrali_judge(
        chart: *const u8,
        chart_len: usize,
        region: usize,
        claims: *const u8,
        claims_len: usize,
    ) -> i64;
    pub fn bohrali_judge_sized(
        chart: *const u8,
        chart_len: usize,
        region: usize,
        size: usize,
        claims: *const u8,
        claims_len: usize,
    ) -> i64;
    pub fn bohrali_listing(text: *const u8, text_len: usize, out: *mut u8, out_len: usize) -> i64;
    pub fn bohrali_locks(
        chart: *const u8,
        chart_len: usize,
        region: usize,
        out: *mut u8,
        out_len: usize,
    ) -> i64;
    pub fn bohrali_locks_sized(
        chart: *const u8,
        chart_len: usize,
        region: usize,
        size: usize,
        out: *mut u8,
        out_len: usize,
    ) -> i64;
    pub fn bohrali_pair(
        chart: *const u8,
        chart_len: usize,
        region: usize,
        a: usize,
        b: usize,
    ) -> i64;
    pub fn bohrali_pair_sized(
        chart: *const u8,
        chart_len: usize,
        region: usize,
        size: usize,
        a: usize,
        b: usize,
    ) -> i64;
    pub fn bohrali_phases(
        chart: *const u8,
        chart_len: usize,
        region: usize,
        out: *mut u8,
        out_len: usize,
    ) -> i64;
    pub fn bohrali_races(
        chart: *const u8,
        chart_len: usize,
        region: usize,
        accesses: *const u8,
        accesses_len: usize,
        out: *mut u8,
        out_len: usize,
    ) -> i64;
    pub fn bohrali_remove_edge(
        buffer: *mut u8,
        buffer_len: usize,
        chart_len: usize,
        from: usize,
        to: usize,
    ) -> i64;
    pub fn bohrali_sheet(
        chart: *const u8,
        chart_len: usize,
        region: usize,
        out: *mut u8,
        out_len: usize,
    ) -> i64;
    pub fn bohrali_sheet_sized(
        chart: *const u8,
        chart_len: usize,
        region: usize,
        size: usize,
        out: *mut u8,
        out_len: usize,
    ) -> i64;
    pub fn bohrali_witnessed(
        chart: *const u8,
        chart_len: usize,
        region: usize,
        size: usize,
        trace: *const u8,
        trace_len: usize,
        a: usize,
        b: usize,
    ) -> i64;
}
