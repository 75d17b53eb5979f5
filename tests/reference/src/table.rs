//! A table of 32 slots, each free or with one entry.

use crate::codes::SLOTS;
use crate::records::Record;

/// The slots of one table of a controller.
#[derive(Clone, PartialEq, Eq, Hash, Debug)]
pub struct Table<R> {
    /// Always 32 of them.
    slots: Vec<Option<R>>,
}

impl<R: Record> Table<R> {
    /// A table with every slot free.
    pub fn new() -> Table<R> {
        Table { slots: vec![None; SLOTS] }
    }

    /// A table with record k in slot k; at most 32 records.
    pub fn of(records: &[R]) -> Table<R> {
        let mut table = Table::new();
        for (slot, record) in table.slots.iter_mut().zip(records) {
            *slot = Some(record.clone());
        }
        table
    }

    /// A table of these slots, 32 of them.
    pub fn of_slots(slots: Vec<Option<R>>) -> Table<R> {
        assert_eq!(slots.len(), SLOTS);
        Table { slots }
    }

    /// All slots, free or taken.
    pub fn slots(&self) -> &[Option<R>] {
        &self.slots
    }

    /// The entries in slot order.
    pub fn entries(&self) -> impl Iterator<Item = &R> {
        self.slots.iter().flatten()
    }

    /// How many slots are taken.
    pub fn len(&self) -> usize {
        self.entries().count()
    }

    /// Whether every slot is free.
    pub fn is_empty(&self) -> bool {
        self.len() == 0
    }

    /// Whether no slot is free.
    pub fn is_full(&self) -> bool {
        self.len() == SLOTS
    }

    /// Whether an entry names the same thing as this one.
    pub fn has(&self, record: &R) -> bool {
        self.entries().any(|entry| entry.names_same(record))
    }

    /// Puts the entry into the slot of the one that names the same thing, else
    /// into the lowest free slot. False if neither is there.
    pub fn put(&mut self, record: R) -> bool {
        let names_it = |slot: &Option<R>| slot.as_ref().is_some_and(|entry| entry.names_same(&record));
        let place = self.slots.iter().position(names_it);
        match place.or_else(|| self.slots.iter().position(|slot| slot.is_none())) {
            Some(place) => self.slots[place] = Some(record),
            None => return false,
        }
        true
    }

    /// Frees the slots of all entries that the test picks.
    pub fn remove(&mut self, picks: impl Fn(&R) -> bool) {
        for slot in &mut self.slots {
            if slot.as_ref().is_some_and(&picks) {
                *slot = None;
            }
        }
    }
}

impl<R: Record> Default for Table<R> {
    fn default() -> Self {
        Table::new()
    }
}
