//! How full a page is (document 02, W-204).

/// The number of cells other than FFh. A full page of the largest devices has 256 of them, which is more than a byte
/// holds.
pub(crate) fn page_count(page: &[u8]) -> u16 {
    page.iter().map(|&cell| u16::from(cell != 0xFF)).sum()
}
