//! What the stand-in macros call: the note of a reset, and the guard of a table field; and the lines that are answered.
use core::cell::RefCell;

use zigbee_types::StorageVec;

use crate::nwk::nib::NibId;

thread_local! {
    static LOG: RefCell<Vec<String>> = const { RefCell::new(Vec::new()) };
    static LOGGING: core::cell::Cell<bool> = const { core::cell::Cell::new(true) };
}

/// One line of output, in the order in which things happen.
pub fn log(line: impl FnOnce() -> String) {
    if LOGGING.get() {
        LOG.with_borrow_mut(|l| l.push(line()));
    }
}

/// The lines since the last taking.
pub fn take_log() -> Vec<String> {
    LOG.with_borrow_mut(core::mem::take)
}

pub fn set_logging(on: bool) {
    LOGGING.set(on);
}

/// Called by every setter of the NIB. Only `clear_nib_on_leave` writes the send total, so that is where the reset is noted.
#[inline(always)]
pub fn updated(field: NibId) {
    if field == NibId::tx_total {
        log(|| "reset".to_string());
    }
}

/// Guard of a table field that is written row by row.
pub struct TableMut<'a, V>(pub spin::WriteGuard<'a, V>);

impl<T, const N: usize> TableMut<'_, StorageVec<T, N>> {
    pub fn len(&self) -> usize {
        self.0.len()
    }
    pub fn get(&self, index: usize) -> Option<&T> {
        self.0.get(index)
    }
    pub fn position(&self, f: impl FnMut(&T) -> bool) -> Option<usize> {
        self.0.iter().position(f)
    }
    /// Changes one row; nothing happens past the end.
    pub fn update(&mut self, index: usize, f: impl FnOnce(&mut T)) {
        if let Some(row) = self.0.get_mut(index) {
            f(row);
        }
    }
}
