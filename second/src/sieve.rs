//! Tests of whole pages: an entry's words against one bound each, all at once.

use crate::ground::Ground;
use crate::page::{each_place, lanes, slots, used_places, Lanes, Page, GUST};

/// Laid over the low or the high ends, it turns "at least" into "at most".
const LOWS: Lanes = [!0, 0, !0, 0, !0, 0, 0, 0];
const HIGHS: Lanes = [0, !0, 0, !0, 0, !0, 0, 0];

/// Passes a box if each of its words, flipped where wanted, is at most its bound.
pub(crate) struct Sieve {
    flip: Lanes,
    bound: Lanes,
}

impl Sieve {
    /// Passes boxes that touch the ground.
    #[inline]
    pub(crate) fn touching(ground: &Ground) -> Self {
        let [el, eh, nl, nh, dl, dh] = *ground;
        Sieve {
            flip: HIGHS,
            bound: [eh, !el, nh, !nl, dh, !dl, !0, !0],
        }
    }

    /// Passes boxes that the ground covers.
    #[inline]
    pub(crate) fn covered_by(ground: &Ground) -> Self {
        let [el, eh, nl, nh, dl, dh] = *ground;
        Sieve {
            flip: LOWS,
            bound: [!el, eh, !nl, nh, !dl, dh, !0, !0],
        }
    }

    /// Passes entries that the ground covers and whose gust is at most this one.
    #[inline]
    pub(crate) fn struck_by(ground: &Ground, gust: u16) -> Self {
        let mut sieve = Sieve::covered_by(ground);
        sieve.bound[GUST] = gust;
        sieve
    }

    /// Whether the box that begins these words passes.
    #[inline]
    pub(crate) fn passes(&self, words: &Lanes) -> bool {
        let mut over = 0;
        for (lane, word) in words.iter().enumerate() {
            over |= (word ^ self.flip[lane]).saturating_sub(self.bound[lane]);
        }
        over == 0
    }

    /// A bit for each used entry of the page that passes. Kept apart from its callers, so that
    /// bounds known there do not break up the lanes here.
    #[inline(never)]
    pub(crate) fn places(&self, page: &Page) -> u32 {
        let mut passing = 0;
        for place in each_place(used_places(page)) {
            passing |= u32::from(self.passes(lanes(&slots(page)[place], 0))) << place;
        }
        passing
    }
}
