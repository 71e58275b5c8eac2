//! A lock for one thread.

use std::cell::{Ref, RefCell, RefMut};

#[derive(Debug)]
pub struct RwLock<T>(RefCell<T>);

impl<T> RwLock<T> {
    pub fn new(inner: T) -> Self {
        RwLock(RefCell::new(inner))
    }

    pub fn read(&self) -> Ref<'_, T> {
        self.0.borrow()
    }

    pub fn upgradable_read(&self) -> Ref<'_, T> {
        self.0.borrow()
    }

    pub fn write(&self) -> RefMut<'_, T> {
        self.0.borrow_mut()
    }
}
