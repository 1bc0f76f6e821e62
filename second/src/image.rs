//! The saved image: all pages, then a trailer that points back to the root.

use crate::page::{MOST_PAGES, PAGE_WORDS};
use crate::{Refusal, SmallRecord};

/// Bytes of one page.
pub const PAGE_BYTES: usize = 2 * PAGE_WORDS;
/// Bytes of the trailer.
pub const TRAILER_BYTES: usize = 22;
/// The one form of image there is: day numbers by the Gregorian calendar.
/// Form 1 had a 29 February 1900, so its days from then on are others.
const FORM: u16 = 2;

/// The image's length for a table of that many pages.
pub fn image_length(pages: usize) -> usize {
    PAGE_BYTES * pages + TRAILER_BYTES
}

/// How many pages an image of that length has, if any number fits.
pub(crate) fn pages_of(length: usize) -> Option<usize> {
    let bytes = length.checked_sub(TRAILER_BYTES)?;
    let pages = bytes / PAGE_BYTES;
    (bytes.is_multiple_of(PAGE_BYTES) && (1..=MOST_PAGES).contains(&pages)).then_some(pages)
}

/// Writes a sound book into a buffer of the right length.
pub(crate) fn write(table: &[u16], book: &SmallRecord, image: &mut [u8]) {
    let (body, trailer) = image.split_at_mut(2 * table.len());
    for (bytes, word) in body.as_chunks_mut().0.iter_mut().zip(table) {
        *bytes = word.to_le_bytes();
    }
    let pages = table.len() / PAGE_WORDS;
    let distance = (PAGE_BYTES * (pages - book.root as usize)) as u32;
    trailer[0..4].copy_from_slice(&distance.to_le_bytes());
    trailer[4..6].copy_from_slice(&(pages as u16).to_le_bytes());
    trailer[6..8].copy_from_slice(&(book.height as u16).to_le_bytes());
    trailer[8..12].copy_from_slice(&book.accepted.to_le_bytes());
    trailer[12..16].copy_from_slice(&book.struck.to_le_bytes());
    trailer[16..20].copy_from_slice(&book.covered.to_le_bytes());
    trailer[20..22].copy_from_slice(&FORM.to_le_bytes());
}

/// The small record that the trailer of an image of so many pages tells.
pub(crate) fn read_trailer(image: &[u8], pages: usize) -> Result<SmallRecord, Refusal> {
    let trailer = &image[PAGE_BYTES * pages..];
    let long = |at: usize| u32::from(short(trailer, at)) | u32::from(short(trailer, at + 2)) << 16;
    let distance = long(0) as usize;
    let back = distance / PAGE_BYTES;
    let points_at_page = distance.is_multiple_of(PAGE_BYTES) && (1..=pages).contains(&back);
    if short(trailer, 20) != FORM || usize::from(short(trailer, 4)) != pages || !points_at_page {
        return Err(Refusal::Trailer);
    }
    Ok(SmallRecord {
        root: (pages - back) as u32,
        height: u32::from(short(trailer, 6)),
        accepted: long(8),
        struck: long(12),
        covered: long(16),
    })
}

/// Copies the image's pages into a table of the right length.
pub(crate) fn read_pages(image: &[u8], table: &mut [u16]) {
    for (word, bytes) in table.iter_mut().zip(image.as_chunks().0) {
        *word = u16::from_le_bytes(*bytes);
    }
}

fn short(bytes: &[u8], at: usize) -> u16 {
    u16::from_le_bytes([bytes[at], bytes[at + 1]])
}
