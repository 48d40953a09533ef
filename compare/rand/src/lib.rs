//! `rand::random()` for masks alone: gives the masks that were laid ready, and zeros behind them.
use std::{cell::RefCell, collections::VecDeque};

thread_local!(static MASKS: RefCell<VecDeque<[u8; 4]>> = const { RefCell::new(VecDeque::new()) });

/// The masks of the next call, first frame first. Earlier ones are forgotten.
pub fn lay_masks(masks: &[[u8; 4]]) {
    MASKS.with(|m| *m.borrow_mut() = masks.iter().copied().collect());
}

pub fn random() -> [u8; 4] {
    MASKS.with(|m| m.borrow_mut().pop_front()).unwrap_or_default()
}
