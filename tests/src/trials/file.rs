//! Refusals 3 and 4: the length and the header. Both always give card 0.

use super::{refused, trial, Trial};
use model::builder::{plain, sheet_w, Draft};
use model::card::MOST_BYTES;

pub fn trials() -> Vec<Trial> {
    let mut trials = length();
    trials.extend(header());
    trials
}

fn length() -> Vec<Trial> {
    let zeros = [1, 8, 15, 17, 31, 33, 175, 177, 2_255, 2_257, 2_264, 2_288, 4_095, 4_096, 4_097, 4_112];
    let of_zeros = |n| trial(format!("3, {n} zeros"), Draft::of(vec![0; n]), refused(3, 0));
    let mut trials: Vec<Trial> = zeros.into_iter().map(of_zeros).collect();
    let full = || plain(64, 12, 64);
    trials.extend([
        trial("3, W without its last byte", sheet_w().cut(175), refused(3, 0)),
        trial("3, W and one byte", sheet_w().and(&[0]), refused(3, 0)),
        trial("3, a full sheet without its last byte", full().cut(MOST_BYTES - 1), refused(3, 0)),
        trial("3, a full sheet and one byte", full().and(&[0]), refused(3, 0)),
        trial("3, a full sheet and a second one", full().and(&full().bytes), refused(3, 0)),
        trial("3, W and bytes up to 65,535", sheet_w().and(&[255; 65_535 - 176]), refused(3, 0)),
    ]);
    trials
}

fn header() -> Vec<Trial> {
    let w = sheet_w;
    let mut trials: Vec<Trial> = [0, 2, 3, 4, 129]
        .into_iter()
        .map(|kind| trial(format!("4, header of kind {kind}"), w().byte(0, 0, kind), refused(4, 0)))
        .collect();
    trials.extend([
        trial("4, version 0", w().byte(0, 1, 0), refused(4, 0)),
        trial("4, version 2 with no class levels", w().byte(0, 1, 2), refused(4, 0)),
        trial("4, header's next is 1", w().next(0, 1), refused(4, 0)),
        trial("4, header's next is 256", w().next(0, 256), refused(4, 0)),
        trial("4, card number 0", w().number(0), refused(4, 0)),
        trial("4, card number one too low", w().number(10), refused(4, 0)),
        trial("4, card number one too high", w().number(12), refused(4, 0)),
        trial("4, card number 256 too high", w().number(11 + 256), refused(4, 0)),
        trial("4, card number with its bytes swapped", w().number(11 << 8), refused(4, 0)),
        trial("4, card number is the length in bytes", w().number(176), refused(4, 0)),
        trial("4, W without its last card", w().cut(160), refused(4, 0)),
        trial("4, W and a card, number as it was", w().and(&[0; 16]), refused(4, 0)),
        trial("4, one card of zeros", Draft::of(vec![0; 16]), refused(4, 0)),
        trial("4, one card of 255", Draft::of(vec![255; 16]), refused(4, 0)),
        trial("4, 141 cards of zeros", Draft::of(vec![0; MOST_BYTES]), refused(4, 0)),
        trial("4, a full sheet, number 140", plain(64, 12, 64).number(140), refused(4, 0)),
    ]);
    trials
}
