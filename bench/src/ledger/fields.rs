//! The fields by which accounts and transfers are searched, and their indexes.

use super::bounds::Span;
use super::hash::hash;
use super::place::Place;
use super::record::Record;
use super::sequence::Sequence;
use super::slots::Slots;

/// The searched fields of a record, or what a filter asks of them: 0 asks nothing.
#[derive(Clone, Copy, Default, PartialEq, Eq)]
pub struct Fields {
    pub user_data_128: u128,
    pub user_data_64: u64,
    pub user_data_32: u32,
    pub ledger: u32,
    pub code: u16,
}

impl Fields {
    /// Whether nothing is asked.
    pub fn ask_nothing(&self) -> bool {
        *self == Fields::default()
    }

    /// Whether a record's fields are what is asked.
    pub fn are_met_by(&self, record: &Fields) -> bool {
        meets(self.user_data_128, record.user_data_128)
            && meets(self.user_data_64, record.user_data_64)
            && meets(self.user_data_32, record.user_data_32)
            && meets(self.ledger, record.ledger)
            && meets(self.code, record.code)
    }
}

fn meets<V: Default + PartialEq>(asked: V, field: V) -> bool {
    asked == V::default() || asked == field
}

/// A value of a field, and the rising places of the records that have it.
struct Posting<V, T> {
    value: V,
    places: Vec<Place<T>>,
}

/// The postings of a field. Records with 0 aren't listed, since no filter can ask for them.
struct Postings<V, T> {
    postings: Vec<Posting<V, T>>,
    values: Slots<Posting<V, T>>,
}

impl<V: Copy + Default + Eq + Into<u128>, T> Postings<V, T> {
    /// Lists records behind those that are listed, by their values.
    fn list<'r>(
        &mut self,
        records: impl Iterator<Item = (Place<T>, &'r T)>,
        value: impl Fn(&Fields) -> V,
    ) where
        T: Record + 'r,
    {
        for (place, record) in records {
            let value = value(&record.fields());
            if value != V::default() {
                self.posting(value).places.push(place);
            }
        }
    }

    /// The posting of a value, which is a new one where there is none.
    fn posting(&mut self, value: V) -> &mut Posting<V, T> {
        let found = self.find(value).unwrap_or_else(|| self.add(value));
        &mut self.postings[found.index()]
    }

    fn find(&self, value: V) -> Option<Place<Posting<V, T>>> {
        let is_sought = |place: Place<_>| self.postings[place.index()].value == value;
        self.values.find(hash(value.into()), is_sought)
    }

    fn add(&mut self, value: V) -> Place<Posting<V, T>> {
        let place = Place::after(self.postings.len());
        self.values.insert(hash(value.into()), place);
        self.postings.push(Posting {
            value,
            places: Vec::new(),
        });
        place
    }

    /// The places of a value, or None where none is asked for.
    fn asked(&self, value: V) -> Option<&[Place<T>]> {
        if value == V::default() {
            return None;
        }
        let found = self.find(value);
        Some(found.map_or(&[], |place| &self.postings[place.index()].places))
    }
}

impl<V, T> Default for Postings<V, T> {
    fn default() -> Self {
        Postings {
            postings: Vec::new(),
            values: Slots::default(),
        }
    }
}

/// The indexes of all searched fields, over those records that were there when it was last brought up to date.
pub struct FieldIndex<T> {
    listed: usize,
    user_data_128: Postings<u128, T>,
    user_data_64: Postings<u64, T>,
    user_data_32: Postings<u32, T>,
    ledger: Postings<u32, T>,
    code: Postings<u16, T>,
}

impl<T: Record> FieldIndex<T> {
    /// Lists the records that were added, one field after the other.
    pub fn update(&mut self, records: &Sequence<T>) {
        let added = || records.added_after(self.listed);
        self.user_data_128
            .list(added(), |fields| fields.user_data_128);
        self.user_data_64
            .list(added(), |fields| fields.user_data_64);
        self.user_data_32
            .list(added(), |fields| fields.user_data_32);
        self.ledger.list(added(), |fields| fields.ledger);
        self.code.list(added(), |fields| fields.code);
        self.listed = records.len();
    }

    /// The shortest of the lists of the fields that are asked for, within a span, or None where no field is asked for.
    pub fn shortest(&self, asked: &Fields, span: Span<Place<T>>) -> Option<&[Place<T>]> {
        let lists = [
            self.user_data_128.asked(asked.user_data_128),
            self.user_data_64.asked(asked.user_data_64),
            self.user_data_32.asked(asked.user_data_32),
            self.ledger.asked(asked.ledger),
            self.code.asked(asked.code),
        ];
        let lists = lists.into_iter().flatten();
        lists
            .map(|list| span.cut(list, |place| *place))
            .min_by_key(|list| list.len())
    }
}

impl<T> Default for FieldIndex<T> {
    fn default() -> Self {
        FieldIndex {
            listed: 0,
            user_data_128: Postings::default(),
            user_data_64: Postings::default(),
            user_data_32: Postings::default(),
            ledger: Postings::default(),
            code: Postings::default(),
        }
    }
}
