//! Stand-in for `spin`: a lock for one thread. Where the real one would spin for ever (a guard held while a writer wants in) this one panics.
use core::cell::{Cell, UnsafeCell};
use core::ops::{Deref, DerefMut};

pub struct RwLock<T> {
    // readers, or -1 for a writer
    users: Cell<isize>,
    value: UnsafeCell<T>,
}
// SAFETY: the harness has one thread
unsafe impl<T> Sync for RwLock<T> {}

impl<T> RwLock<T> {
    pub const fn new(value: T) -> Self {
        Self { users: Cell::new(0), value: UnsafeCell::new(value) }
    }
    #[inline]
    pub fn read(&self) -> ReadGuard<'_, T> {
        assert!(self.users.get() >= 0, "deadlock: read while written");
        self.users.set(self.users.get() + 1);
        ReadGuard { lock: self }
    }
    #[inline]
    pub fn write(&self) -> WriteGuard<'_, T> {
        assert!(self.users.get() == 0, "deadlock: write while in use");
        self.users.set(-1);
        WriteGuard { lock: self }
    }
}
pub struct ReadGuard<'a, T> {
    lock: &'a RwLock<T>,
}
impl<T> Deref for ReadGuard<'_, T> {
    type Target = T;
    #[inline]
    fn deref(&self) -> &T {
        // SAFETY: no writer while users > 0
        unsafe { &*self.lock.value.get() }
    }
}
impl<T> Drop for ReadGuard<'_, T> {
    #[inline]
    fn drop(&mut self) {
        self.lock.users.set(self.lock.users.get() - 1);
    }
}
pub struct WriteGuard<'a, T> {
    lock: &'a RwLock<T>,
}
impl<T> Deref for WriteGuard<'_, T> {
    type Target = T;
    #[inline]
    fn deref(&self) -> &T {
        // SAFETY: this guard is the only user
        unsafe { &*self.lock.value.get() }
    }
}
impl<T> DerefMut for WriteGuard<'_, T> {
    #[inline]
    fn deref_mut(&mut self) -> &mut T {
        // SAFETY: this guard is the only user
        unsafe { &mut *self.lock.value.get() }
    }
}
impl<T> Drop for WriteGuard<'_, T> {
    #[inline]
    fn drop(&mut self) {
        self.lock.users.set(0);
    }
}
