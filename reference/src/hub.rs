//! The hub: a store once it is set up, and the answer to each record.

use crate::answer::{Answer, Refusal};
use crate::coverage::{Branch, Observer};
use crate::fault::{Fault, Right};
use crate::list::Groups;
use crate::record::Record;
use crate::rights::{self, Rights, Row};
use crate::store::{Store, MAX_SLOTS, MAX_VALUE};
use std::marker::PhantomData;

/// The hub, before or after setup. `F` is the fault built in, `O` the observer.
#[derive(Clone, Debug)]
pub struct Hub<F: Fault = Right, O: Observer = ()> {
    pub(crate) row_length: usize,
    pub(crate) store: Option<Store>,
    /// The rows of the table that stands (A7); none allow all.
    table: Vec<Row>,
    /// The largest value that a put may bring: `MAX_VALUE`. Before A1 it was `u64::MAX`; a hub that
    /// starts with that keeps, when this changes, the store that the records so far have left.
    pub max_value: u64,
    pub observer: O,
    fault: PhantomData<F>,
}

impl Hub {
    /// A hub that is not set up, with all the slots that a setup may ask for.
    pub fn new() -> Hub {
        Hub::with_row(usize::from(MAX_SLOTS))
    }
}

impl Default for Hub {
    fn default() -> Hub {
        Hub::new()
    }
}

impl<F: Fault, O: Observer + Default> Hub<F, O> {
    /// A hub that is not set up, with a row of so many slots.
    pub fn with_row(row_length: usize) -> Hub<F, O> {
        let (store, observer) = (None, O::default());
        let table = Vec::new();
        Hub { row_length, store, table, max_value: MAX_VALUE, observer, fault: PhantomData }
    }
}

impl<F: Fault, O: Observer> Hub<F, O> {
    /// The store, once set up.
    pub fn store(&self) -> Option<&Store> {
        self.store.as_ref()
    }

    /// Takes a table of rights in place of the earlier one: 9, then 24, with which that stays.
    pub fn give_table(&mut self, table: &[u8]) -> Result<(), Refusal> {
        let read = rights::read::<F>(table);
        if self.store.is_some() && !(F::TABLE_FIRST && read.is_err()) {
            return Err(Refusal::SetUp);
        }
        match read {
            Ok(mut rows) if F::TABLES_JOINED => self.table.append(&mut rows),
            Ok(rows) => self.table = rows,
            Err(unfit) => {
                self.observer.branch(Branch::of_table(unfit));
                if F::REFUSED_CLEARS {
                    self.table.clear();
                }
                return Err(Refusal::Table);
            }
        }
        Ok(())
    }

    /// Empties the hub of its setup and of all tables; a table and a setup may be given anew.
    pub fn empty(&mut self) {
        self.store = None;
        if !F::TABLE_KEPT {
            self.table.clear();
        }
    }

    /// Takes one record's bytes, with the list that is lent with them. Refusals on reading come in the
    /// order 6, 1, 2, 8 or 9, 5, 3, 4 or 17, 16, 25, 23, then 10 or 11, then 12 or 13, then 19, 20 or 21.
    #[inline]
    pub fn take(&mut self, bytes: &[u8], list: &[u8]) -> Answer {
        match Record::decode(bytes) {
            Ok(record) => self.take_record(record, list),
            Err(refusal) => Answer::No(refusal),
        }
    }

    /// Takes a well-formed record. Only a setup uses the list.
    #[inline]
    pub fn take_record(&mut self, record: Record, list: &[u8]) -> Answer {
        if F::LARGE_NOT_SET_UP {
            let max_value = self.max_value;
            self.store.take_if(|store| store.slots.iter().any(|slot| slot.is_above(max_value)));
        }
        let result = match (&mut self.store, record) {
            (_, Record::Put { reading, .. })
                if F::VALUE_FIRST && reading.value > self.max_value =>
            {
                Err(Refusal::Value)
            }
            (Some(store), record) => store.take::<F, O>(record, self.max_value, &mut self.observer),
            (None, Record::Setup { workers, registers, slots, clock }) => {
                let groups = Groups::read::<F>(list, registers).map_err(|_| Refusal::Setup);
                let store = groups.and_then(|groups| {
                    Store::set_up(self.row_length, workers, registers, slots, clock, groups)
                });
                store.map(|mut store| {
                    let workers = store.workers.len();
                    let rights = Rights::new::<F>(&self.table, workers, registers, &store.groups);
                    store.rights = rights;
                    self.observer.set_up(&store);
                    self.store = Some(store);
                    Answer::Ok
                })
            }
            (None, _) => Err(Refusal::NotSetUp),
        };
        if O::ON {
            self.observe(record, list, result);
        }
        result.unwrap_or_else(Answer::No)
    }
}
