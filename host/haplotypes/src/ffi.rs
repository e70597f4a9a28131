//! The exports as `host/haplotypes.h` declares them, which says what a caller must see to. A slice is a pointer and a length.

extern "C" {
    pub fn haplotypes_unpack(
        n: usize,
        table: *const u8,
        table_length: usize,
        cells: *mut u8,
        cells_length: usize,
        tags: *mut u32,
        tags_length: usize,
        grades: *mut u8,
        grades_length: usize,
    ) -> u64;
    pub fn haplotypes_pack(
        n: usize,
        cells: *const u8,
        cells_length: usize,
        tags: *const u32,
        tags_length: usize,
        grades: *const u8,
        grades_length: usize,
        table: *mut u8,
        table_length: usize,
    ) -> u64;
    pub fn haplotypes_find(tag: u32, table: *const u8, table_length: usize) -> usize;
    pub fn haplotypes_check(
        n: usize,
        table: *const u8,
        table_length: usize,
        answer: *mut u8,
        answer_length: usize,
    ) -> u64;
    pub fn haplotypes_conflict_counts(
        n: usize,
        table: *const u8,
        table_length: usize,
        counts: *mut u8,
        counts_length: usize,
    ) -> u64;
    pub fn haplotypes_least_snp_removal(
        n: usize,
        table: *const u8,
        table_length: usize,
        work: *mut u16,
        work_length: usize,
        answer: *mut u8,
        answer_length: usize,
    ) -> u64;
    pub fn haplotypes_least_fragment_removal(
        n: usize,
        table: *const u8,
        table_length: usize,
        work: *mut u16,
        work_length: usize,
        answer: *mut u8,
        answer_length: usize,
    ) -> u64;
    pub fn haplotypes_least_corrections(
        n: usize,
        table: *const u8,
        table_length: usize,
        work: *mut u16,
        work_length: usize,
        answer: *mut u8,
        answer_length: usize,
        corrected: *mut u8,
        corrected_length: usize,
    ) -> u64;
}
