//! The static library's calls, as they are exported: unsafe, and the one place where they are declared.
//!
//! A slice passes as a pointer and a length in items. What every call asks for: each pointer is aligned and not null, also where the length is
//! 0, and valid for its items, to read and, where it is `*mut`, to write; what the call may write lies apart from everything else that it is
//! lent. It asks nothing of what the numbers and the memory hold.
//!
//! The result is 0 if the call is accepted, else the refusal's number. `answer` is always written whole, and holds anything before.

/// What a call answers: place and bit position of a refusal, then the values of an accepted call, and zeros for the rest.
pub type Filled = [u64; 8];

/// The calls that hand out a practice book or its table.
pub type HandOut = unsafe extern "C" fn(*mut u16, usize, *mut Filled) -> u32;

/// Insert and delete: a table's record, region and spare, and the item.
pub type TableChange =
    unsafe extern "C" fn(u8, u8, u32, *mut u32, usize, *mut u32, usize, u32, *mut Filled) -> u32;

/// Extraction and walk: a table's record, region and spare, and the output.
pub type TableListing = unsafe extern "C" fn(
    u8,
    u8,
    u32,
    *const u32,
    usize,
    *const u32,
    usize,
    *mut u32,
    usize,
    *mut Filled,
) -> u32;

#[link(name = "bridgenook", kind = "static")]
unsafe extern "C" {
    /// The archive's version: major * 1,000,000 + minor * 1,000 + patch.
    pub fn bridgenook_version() -> u32;

    /// Values: k.
    pub fn bridgenook_rows(lg: u8, answer: *mut Filled) -> u32;

    /// Values: 0 Empty, 1 Sparse, 2 Hybrid, 3 Pinned, 4 Sliding.
    pub fn bridgenook_determine_flavor(lg: u8, coupons: u32, answer: *mut Filled) -> u32;

    /// Values: the offset.
    pub fn bridgenook_determine_correct_offset(lg: u8, coupons: u32, answer: *mut Filled) -> u32;

    /// Values: the phase, 0 to 21.
    pub fn bridgenook_determine_pseudo_phase(lg: u8, coupons: u32, answer: *mut Filled) -> u32;

    /// Values: the base bits.
    pub fn bridgenook_number_of_base_bits(lg: u8, pairs: u32, answer: *mut Filled) -> u32;

    /// Values: the most bits that so many pairs take, and their words.
    pub fn bridgenook_most_bits(lg: u8, pairs: u32, answer: *mut Filled) -> u32;

    /// Values: the words that so many bits fill. Never refused.
    pub fn bridgenook_words_for(bits: u64, answer: *mut Filled) -> u32;

    /// Values: the bits that so many words have room for. Never refused.
    pub fn bridgenook_bits_in(words: u64, answer: *mut Filled) -> u32;

    /// Checks a book. No values.
    pub fn bridgenook_check_book(book: *const u16, symbols: usize, answer: *mut Filled) -> u32;

    /// Checks a book together with its decoding table. No values.
    pub fn bridgenook_check_table(
        book: *const u16,
        symbols: usize,
        table: *const u16,
        entries: usize,
        answer: *mut Filled,
    ) -> u32;

    /// Fills a book's decoding table. No values.
    pub fn bridgenook_fill_table(
        book: *const u16,
        symbols: usize,
        table: *mut u16,
        entries: usize,
        answer: *mut Filled,
    ) -> u32;

    /// Values: where the phase's book starts in the set, and its length.
    pub fn bridgenook_pick(set: *const u16, entries: usize, phase: u8, answer: *mut Filled) -> u32;

    /// Hands out the practice book for pairs, 65 entries. No values.
    pub fn bridgenook_practice_pair_book(
        book: *mut u16,
        symbols: usize,
        answer: *mut Filled,
    ) -> u32;

    /// Hands out the practice book for windows, 256 entries. No values.
    pub fn bridgenook_practice_window_book(
        book: *mut u16,
        symbols: usize,
        answer: *mut Filled,
    ) -> u32;

    /// Hands out the decoding table of the practice book for pairs, 4,096 entries. No values.
    pub fn bridgenook_practice_pair_table(
        table: *mut u16,
        entries: usize,
        answer: *mut Filled,
    ) -> u32;

    /// Judges a list of pairs. No values.
    pub fn bridgenook_judge_pairs(
        lg: u8,
        pairs: *const u32,
        count: usize,
        answer: *mut Filled,
    ) -> u32;

    /// Values: bits with pad, words.
    pub fn bridgenook_write_pairs(
        book: *const u16,
        symbols: usize,
        lg: u8,
        pairs: *const u32,
        count: usize,
        out: *mut u8,
        room: usize,
        answer: *mut Filled,
    ) -> u32;

    /// Reads `count` pairs. No values.
    pub fn bridgenook_read_pairs(
        book: *const u16,
        symbols: usize,
        table: *const u16,
        entries: usize,
        lg: u8,
        count: u32,
        stream: *const u8,
        bytes: usize,
        out: *mut u32,
        room: usize,
        answer: *mut Filled,
    ) -> u32;

    /// Values: bits with pad, words.
    pub fn bridgenook_write_window(
        book: *const u16,
        symbols: usize,
        lg: u8,
        window: *const u8,
        rows: usize,
        out: *mut u8,
        room: usize,
        answer: *mut Filled,
    ) -> u32;

    /// Reads a window. No values.
    pub fn bridgenook_read_window(
        book: *const u16,
        symbols: usize,
        table: *const u16,
        entries: usize,
        lg: u8,
        stream: *const u8,
        bytes: usize,
        window: *mut u8,
        rows: usize,
        answer: *mut Filled,
    ) -> u32;

    /// Values: lg, valid bits, items.
    pub fn bridgenook_table_new(
        lg: u8,
        valid: u8,
        region: *mut u32,
        slots: usize,
        spare: *mut u32,
        spares: usize,
        answer: *mut Filled,
    ) -> u32;

    /// Values: lg, valid bits, items.
    pub fn bridgenook_table_build(
        valid: u8,
        list: *const u32,
        count: usize,
        region: *mut u32,
        slots: usize,
        spare: *mut u32,
        spares: usize,
        answer: *mut Filled,
    ) -> u32;

    /// Values: 1, lg, valid bits and items; or 0 if the item is there already.
    pub fn bridgenook_table_insert(
        lg: u8,
        valid: u8,
        items: u32,
        region: *mut u32,
        slots: usize,
        spare: *mut u32,
        spares: usize,
        item: u32,
        answer: *mut Filled,
    ) -> u32;

    /// Values: 1, lg, valid bits and items; or 0 if the item is not there.
    pub fn bridgenook_table_delete(
        lg: u8,
        valid: u8,
        items: u32,
        region: *mut u32,
        slots: usize,
        spare: *mut u32,
        spares: usize,
        item: u32,
        answer: *mut Filled,
    ) -> u32;

    /// Values: the number of items listed.
    pub fn bridgenook_table_extract(
        lg: u8,
        valid: u8,
        items: u32,
        region: *const u32,
        slots: usize,
        spare: *const u32,
        spares: usize,
        out: *mut u32,
        room: usize,
        answer: *mut Filled,
    ) -> u32;

    /// Values: the number of items listed.
    pub fn bridgenook_table_walk(
        lg: u8,
        valid: u8,
        items: u32,
        region: *const u32,
        slots: usize,
        spare: *const u32,
        spares: usize,
        out: *mut u32,
        room: usize,
        answer: *mut Filled,
    ) -> u32;

    /// Values: lg, valid bits, 0 items.
    pub fn bridgenook_table_clear(
        lg: u8,
        valid: u8,
        items: u32,
        region: *mut u32,
        slots: usize,
        spare: *mut u32,
        spares: usize,
        answer: *mut Filled,
    ) -> u32;

    /// Values: the coupons.
    pub fn bridgenook_count(lg: u8, matrix: *const u64, rows: usize, answer: *mut Filled) -> u32;

    /// Values: coupons, flavor as of `bridgenook_determine_flavor`, offset, first interesting column, number of pairs.
    pub fn bridgenook_split(
        lg: u8,
        matrix: *const u64,
        rows: usize,
        window: *mut u8,
        bytes: usize,
        pairs: *mut u32,
        room: usize,
        answer: *mut Filled,
    ) -> u32;

    /// Expands window and pairs into the matrix. No values.
    pub fn bridgenook_expand(
        lg: u8,
        coupons: u32,
        window: *const u8,
        bytes: usize,
        pairs: *const u32,
        count: usize,
        matrix: *mut u64,
        rows: usize,
        answer: *mut Filled,
    ) -> u32;

    /// Values: configured lg_k, present lg_k, seed.
    pub fn bridgenook_new_union(
        lg: u8,
        seed: u64,
        matrix: *mut u64,
        rows: usize,
        answer: *mut Filled,
    ) -> u32;

    /// Merges the source `from`, `other` (its seed), `coupons`, window and pairs. Values: configured lg_k, present lg_k, seed.
    pub fn bridgenook_merge(
        lg: u8,
        present: u8,
        seed: u64,
        matrix: *mut u64,
        rows: usize,
        from: u8,
        other: u64,
        coupons: u32,
        window: *const u8,
        bytes: usize,
        pairs: *const u32,
        count: usize,
        answer: *mut Filled,
    ) -> u32;
}
