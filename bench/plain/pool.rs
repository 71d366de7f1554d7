//! Values that are shared.

use std::collections::HashSet;
use std::hash::{Hash, Hasher};
use std::ops::Deref;
use std::rc::Rc;

/// Holds equal values once. So two values of one pool are equal if they are at the same address.
pub struct Pool<T> {
    values: HashSet<Rc<T>>,
}

impl<T: Eq + Hash> Pool<T> {
    pub fn new() -> Pool<T> {
        Pool {
            values: HashSet::new(),
        }
    }

    /// The equal value that is held already, else this one.
    pub fn share(&mut self, value: T) -> Shared<T> {
        if let Some(held) = self.values.get(&value) {
            return Shared(held.clone());
        }
        let value = Rc::new(value);
        self.values.insert(value.clone());
        Shared(value)
    }

    /// Drops the values that nothing else holds.
    pub fn sweep(&mut self) {
        self.values.retain(|value| Rc::strong_count(value) > 1);
    }
}

/// A value of a pool.
pub struct Shared<T>(Rc<T>);

impl<T> Clone for Shared<T> {
    fn clone(&self) -> Shared<T> {
        Shared(self.0.clone())
    }
}

impl<T> Deref for Shared<T> {
    type Target = T;

    fn deref(&self) -> &T {
        &self.0
    }
}

impl<T> PartialEq for Shared<T> {
    fn eq(&self, other: &Shared<T>) -> bool {
        Rc::ptr_eq(&self.0, &other.0)
    }
}

impl<T> Eq for Shared<T> {}

impl<T> Hash for Shared<T> {
    fn hash<H: Hasher>(&self, hasher: &mut H) {
        Rc::as_ptr(&self.0).hash(hasher);
    }
}
