//! A map from numbers to values whose copies share what they have in common: copying costs nothing, and a change copies one path.

use std::rc::Rc;

const BITS: u32 = 4;
const FAN: usize = 1 << BITS;

enum Branch<T> {
    Inner([Option<Rc<Branch<T>>>; FAN]),
    Leaf([Option<T>; FAN]),
}

impl<T: Clone> Clone for Branch<T> {
    fn clone(&self) -> Self {
        match self {
            Branch::Inner(below) => Branch::Inner(below.clone()),
            Branch::Leaf(values) => Branch::Leaf(values.clone()),
        }
    }
}

impl<T> Branch<T> {
    fn empty(height: u32) -> Self {
        match height {
            0 => Branch::Leaf(std::array::from_fn(|_| None)),
            _ => Branch::Inner(std::array::from_fn(|_| None)),
        }
    }
}

pub struct Radix<T> {
    root: Rc<Branch<T>>,
    height: u32,
}

impl<T> Clone for Radix<T> {
    fn clone(&self) -> Self {
        Radix { root: Rc::clone(&self.root), height: self.height }
    }
}

impl<T: Clone> Default for Radix<T> {
    fn default() -> Self {
        Radix { root: Rc::new(Branch::empty(0)), height: 0 }
    }
}

fn digit(key: u64, height: u32) -> usize {
    (key >> (BITS * height)) as usize & (FAN - 1)
}

impl<T: Clone> Radix<T> {
    fn holds(&self, key: u64) -> bool {
        let bits = BITS * (self.height + 1);
        bits >= 64 || key >> bits == 0
    }

    pub fn get(&self, key: u64) -> Option<&T> {
        if !self.holds(key) {
            return None;
        }
        let mut at = &self.root;
        let mut height = self.height;
        loop {
            match &**at {
                Branch::Leaf(values) => return values[digit(key, 0)].as_ref(),
                Branch::Inner(below) => {
                    at = below[digit(key, height)].as_ref()?;
                    height -= 1;
                }
            }
        }
    }

    pub fn set(&mut self, key: u64, value: T) {
        while !self.holds(key) {
            self.height += 1;
            let mut root = Branch::empty(self.height);
            if let Branch::Inner(below) = &mut root {
                below[0] = Some(Rc::clone(&self.root));
            }
            self.root = Rc::new(root);
        }
        let mut at = &mut self.root;
        let mut height = self.height;
        loop {
            match Rc::make_mut(at) {
                Branch::Leaf(values) => {
                    values[digit(key, 0)] = Some(value);
                    return;
                }
                Branch::Inner(below) => {
                    at = below[digit(key, height)].get_or_insert_with(|| Rc::new(Branch::empty(height - 1)));
                    height -= 1;
                }
            }
        }
    }

    pub fn remove(&mut self, key: u64) {
        if self.get(key).is_none() {
            return;
        }
        let mut at = &mut self.root;
        let mut height = self.height;
        loop {
            match Rc::make_mut(at) {
                Branch::Leaf(values) => {
                    values[digit(key, 0)] = None;
                    return;
                }
                Branch::Inner(below) => {
                    at = below[digit(key, height)].as_mut().expect("what was found is there");
                    height -= 1;
                }
            }
        }
    }

    /// Drops every key from this one on.
    pub fn truncate(&mut self, from: u64) {
        if self.holds(from) {
            truncate(&mut self.root, self.height, from);
        }
    }

    /// All keys with their values, in order.
    pub fn each(&self, see: &mut impl FnMut(u64, &T)) {
        each(&self.root, self.height, 0, see);
    }
}

fn truncate<T: Clone>(at: &mut Rc<Branch<T>>, height: u32, from: u64) {
    let edge = digit(from, height);
    match Rc::make_mut(at) {
        Branch::Leaf(values) => values[edge..].fill(None),
        Branch::Inner(below) => {
            below[edge + 1..].fill(None);
            if let Some(next) = &mut below[edge] {
                truncate(next, height - 1, from);
            }
        }
    }
}

fn each<T>(at: &Branch<T>, height: u32, above: u64, see: &mut impl FnMut(u64, &T)) {
    match at {
        Branch::Leaf(values) => {
            for (i, value) in values.iter().enumerate() {
                if let Some(value) = value {
                    see(above << BITS | i as u64, value);
                }
            }
        }
        Branch::Inner(below) => {
            for (i, next) in below.iter().enumerate() {
                if let Some(next) = next {
                    each(next, height - 1, above << BITS | i as u64, see);
                }
            }
        }
    }
}
