//! The row types (§4.5): a file for each, with all that the model says of it, and here the list of them.

// begin modules: made by release/row-types.py

mod age;
mod arbitrary;
mod burst;
mod comparison;
mod delay;
mod execution_time;
mod input_synchronization;
mod order;
mod output_synchronization;
mod pattern;
mod reaction;
mod repeat;
mod repetition;
mod sporadic;
mod strong_delay;
mod strong_synchronization;
mod synchronization;

pub use age::{Age, age};
pub use arbitrary::{Arbitrary, arbitrary};
pub use burst::{Burst, burst};
pub use comparison::{Comparison, comparison};
pub use delay::{Delay, delay};
pub use execution_time::{ExecutionTime, Executions, Part, execution_time};
pub use input_synchronization::{InputSynchronization, input_synchronization};
pub use order::{Order, order};
pub use output_synchronization::{OutputSynchronization, output_synchronization};
pub use pattern::{Pattern, pattern};
pub use reaction::{Reaction, reaction};
pub use repeat::{Repeat, repeat};
pub use repetition::{Repetition, repetition};
pub use sporadic::{Sporadic, sporadic};
pub use strong_delay::{StrongDelay, strong_delay};
pub use strong_synchronization::{StrongSynchronization, strong_synchronization};
pub use synchronization::{Synchronization, synchronization};

// end modules

use crate::continuation::Event;
use crate::limits::{FIRST_COLOURED, LAST_COLOUR, LAST_TIME, NO_LIMIT, stream};
use crate::random::Random;
use crate::random::tables::Draw;
use crate::steps::{Events, History};

/// What follows from the fields of a type alone. [`row_type`] makes it from their names and roles.
pub trait Fields {
    /// The row of the fields that are given, if they are, asked for in the order of the bytes (§4.5).
    fn read(given: &mut dyn Given) -> Option<Self>
    where
        Self: Sized;

    /// The fields in the order of the bytes (§4.5).
    fn fields(&self) -> Vec<Field>;

    /// The two times of which the first may not be above the second, if there are such (§8.7).
    fn bounds(&self) -> Option<(u64, u64)>;
}

/// Makes a type of its fields, each with its role ([`Field`]), and of the bounds that it has.
macro_rules! row_type {
    ($(#[$words:meta])* $name:ident { $($field:ident: $role:ident $(($most:expr))?),* } $($lower:ident <= $upper:ident)?) => {
        $(#[$words])*
        #[derive(Clone, Debug, PartialEq, Eq)]
        pub struct $name {
            $(pub $field: row_type!(@type $role),)*
        }

        impl $crate::types::Fields for $name {
            fn read(given: &mut dyn $crate::types::Given) -> Option<$name> {
                $(row_type!(@number $role, given);)*
                Some($name { $($field: row_type!(@read $role, given, stringify!($field))?,)* })
            }

            fn fields(&self) -> Vec<$crate::types::Field> {
                vec![$(row_type!(@field $role $(($most))?, self.$field),)*]
            }

            fn bounds(&self) -> Option<(u64, u64)> {
                row_type!(@bounds $(self.$lower, self.$upper)?)
            }
        }
    };
    (@type Time) => { u64 };
    (@type Limit) => { u64 };
    (@type Kinds) => { Vec<u8> };
    (@type Coloureds) => { Vec<u8> };
    (@type Offsets) => { Vec<u64> };
    (@type Pairs) => { Vec<(u64, u64)> };
    (@type $byte:ident) => { u8 };
    (@number Kinds, $given:expr) => { $given.number()? };
    (@number Coloureds, $given:expr) => { $given.number()? };
    (@number Offsets, $given:expr) => { $given.number()? };
    (@number Pairs, $given:expr) => { $given.number()? };
    (@number $role:ident, $given:expr) => {};
    (@read Time, $given:expr, $name:expr) => { $given.time($name) };
    (@read Limit, $given:expr, $name:expr) => { $given.time($name) };
    (@read Kinds, $given:expr, $name:expr) => { $given.kinds($name) };
    (@read Coloureds, $given:expr, $name:expr) => { $given.kinds($name) };
    (@read Offsets, $given:expr, $name:expr) => { $given.times($name) };
    (@read Pairs, $given:expr, $name:expr) => { $given.pairs($name) };
    (@read $byte:ident, $given:expr, $name:expr) => { $given.byte($name) };
    (@field Count($most:expr), $value:expr) => { $crate::types::Field::Count { value: $value, most: $most } };
    (@field Kinds, $value:expr) => { $crate::types::Field::Kinds($value.clone()) };
    (@field Coloureds, $value:expr) => { $crate::types::Field::Coloureds($value.clone()) };
    (@field Offsets, $value:expr) => { $crate::types::Field::Offsets($value.clone()) };
    (@field Pairs, $value:expr) => { $crate::types::Field::Pairs($value.clone()) };
    (@field $role:ident, $value:expr) => { $crate::types::Field::$role($value) };
    (@bounds) => { None };
    (@bounds $lower:expr, $upper:expr) => { Some(($lower, $upper)) };
}
pub(crate) use row_type;

/// What the model says of a row of one type. The functions but those on random rows are for rows that pass questions 4 to 7
/// and 18.
pub trait RowType: Fields {
    /// Is the definition true of all these events together, at the clock that they close at (section 5)?
    fn meets(&self, events: &dyn Events) -> bool;

    /// Question 7: is what has an order in order (§8.7)? In most types these are the two bounds, if there are such.
    fn in_order(&self) -> bool {
        self.bounds().is_none_or(|(lower, upper)| lower <= upper)
    }

    /// How many wait, if the row is open: in most types nothing (§6.4).
    fn waiting(&self, _recorded: &History) -> usize {
        0
    }

    /// The time and the stream of the oldest that waits, if the row is open: in most types nothing waits (§15.18, §15.19).
    fn oldest(&self, _recorded: &History) -> Option<(u64, u8)> {
        None
    }

    /// The kind of which 64 can come to wait, if there is one.
    fn crowding_kind(&self) -> Option<u8> {
        None
    }

    /// The earliest continuation that the row can use, before the close: if any continuation meets the row, this one does.
    ///
    /// It is the empty one where a definition speaks of each event together with earlier ones, or with the clock where a later
    /// one is wanted. What is true with a continuation, at the clock that it closes at, is true without it at the clock now: a
    /// later event that was in time is no earlier than now.
    fn earliest_continuation(&self, _recorded: &History) -> Vec<Event> {
        Vec::new()
    }

    /// A time so late that a continuation which meets the row can be chosen with no event after it.
    ///
    /// Where the empty continuation will do it is the clock. A few more places are searched to see that they change nothing.
    fn reach(&self, recorded: &History) -> u64 {
        recorded.clock() + 3
    }

    /// What the definition asks, in parts that speak of different streams; all of them together are the definition.
    fn demands(&self) -> Vec<Demand<'_>> {
        let streams = self.fields().iter().flat_map(Field::streams).collect();
        vec![Demand { streams, met: Box::new(|events| self.meets(events)) }]
    }

    /// An accepted row, drawn at random.
    fn random(draw: &mut Draw) -> Self
    where
        Self: Sized;

    /// Puts something odd in one field.
    fn damage(&mut self, random: &mut Random);
}

/// What the fields of a row are read from: bytes, or words with the fields' names.
pub trait Given {
    /// The n of the row's list, before all fields (§4.5), if it is given.
    fn number(&mut self) -> Option<()>;
    /// The field of this name, of one byte.
    fn byte(&mut self, name: &str) -> Option<u8>;
    /// The time of this name.
    fn time(&mut self, name: &str) -> Option<u64>;
    /// The kinds of this name, any number of them.
    fn kinds(&mut self, name: &str) -> Option<Vec<u8>>;
    /// The times of this name, any number of them.
    fn times(&mut self, name: &str) -> Option<Vec<u64>>;
    /// The pairs of times of this name, any number of them.
    fn pairs(&mut self, name: &str) -> Option<Vec<(u64, u64)>>;
}

/// Streams, and whether events of theirs are as is asked.
pub struct Demand<'a> {
    pub streams: Vec<u8>,
    pub met: Box<dyn Fn(&dyn Events) -> bool + 'a>,
}

/// A field of a row, by what may stand in it (§4.4 to §4.7).
#[derive(Clone, Debug, PartialEq, Eq)]
pub enum Field {
    /// A plain kind.
    Kind(u8),
    /// A coloured kind.
    Coloured(u8),
    /// Two to four plain kinds.
    Kinds(Vec<u8>),
    /// Two to four coloured kinds.
    Coloureds(Vec<u8>),
    /// A number from 1 to `most`.
    Count { value: u8, most: u8 },
    /// One of the five operators of a comparison.
    Operator(u8),
    /// A time.
    Time(u64),
    /// A time, or the mark for no upper limit (§4.7).
    Limit(u64),
    /// One to eight times.
    Offsets(Vec<u64>),
    /// One to eight pairs of a time and a limit.
    Pairs(Vec<(u64, u64)>),
}

impl Field {
    /// The kinds in it.
    pub fn kinds(&self) -> Vec<u8> {
        match self {
            Field::Kind(kind) | Field::Coloured(kind) => vec![*kind],
            Field::Kinds(kinds) | Field::Coloureds(kinds) => kinds.clone(),
            _ => Vec::new(),
        }
    }

    /// Whether its kinds are to be coloured.
    fn is_coloured(&self) -> bool {
        matches!(self, Field::Coloured(_) | Field::Coloureds(_))
    }

    /// The streams of its kinds: of a coloured one those of each colour.
    pub fn streams(&self) -> Vec<u8> {
        let colours = |kind: u8| (0..=LAST_COLOUR).map(move |colour| stream(kind, colour));
        if self.is_coloured() { self.kinds().into_iter().flat_map(colours).collect() } else { self.kinds() }
    }

    /// The times in it, the mark too.
    pub fn times(&self) -> Vec<u64> {
        match self {
            Field::Time(time) | Field::Limit(time) => vec![*time],
            Field::Offsets(times) => times.clone(),
            Field::Pairs(pairs) => pairs.iter().flat_map(|(lower, upper)| [*lower, *upper]).collect(),
            _ => Vec::new(),
        }
    }

    /// The length of the list in it, if it has one.
    pub fn number(&self) -> Option<usize> {
        match self {
            Field::Kinds(kinds) | Field::Coloureds(kinds) => Some(kinds.len()),
            Field::Offsets(times) => Some(times.len()),
            Field::Pairs(pairs) => Some(pairs.len()),
            _ => None,
        }
    }

    /// Question 4 but for type and length: is n, or the operator, in range (§8.4)?
    pub fn number_fits(&self) -> bool {
        match self {
            Field::Kinds(kinds) | Field::Coloureds(kinds) => (2..=4).contains(&kinds.len()),
            Field::Offsets(times) => (1..=8).contains(&times.len()),
            Field::Pairs(pairs) => (1..=8).contains(&pairs.len()),
            Field::Operator(operator) => (1..=5).contains(operator),
            _ => true,
        }
    }

    /// Question 18: are its kinds of the right sort (§8.18)?
    pub fn sort_fits(&self) -> bool {
        self.kinds().iter().all(|kind| (*kind >= FIRST_COLOURED) == self.is_coloured())
    }

    /// Question 6: is it in range (§8.6)?
    pub fn in_range(&self) -> bool {
        let is_time = |time: &u64| *time <= LAST_TIME;
        let is_limit = |time: &u64| is_time(time) || *time == NO_LIMIT;
        match self {
            Field::Count { value, most } => (1..=*most).contains(value),
            Field::Time(time) => is_time(time),
            Field::Limit(time) => is_limit(time),
            Field::Offsets(times) => times.iter().all(is_time),
            Field::Pairs(pairs) => pairs.iter().all(|(lower, upper)| is_time(lower) && is_limit(upper)),
            _ => true,
        }
    }

    /// Its bytes (§4.4). The n of a list is not among them.
    pub fn bytes(&self) -> Vec<u8> {
        match self {
            Field::Kind(byte) | Field::Coloured(byte) | Field::Count { value: byte, .. } | Field::Operator(byte) => {
                vec![*byte]
            }
            Field::Kinds(kinds) | Field::Coloureds(kinds) => kinds.clone(),
            _ => self.times().into_iter().flat_map(u64::to_be_bytes).collect(),
        }
    }
}

/// Makes of the list of types, by number, what has a case for each.
macro_rules! row_types {
    ($($number:literal => $name:ident from $edition:literal,)*) => {
        /// A row of a table: its type and fields. Any values can stand in the fields; the questions say which are accepted.
        ///
        /// Rows with the same type and fields are the same (§4.8).
        #[derive(Clone, Debug, PartialEq, Eq)]
        pub enum Constraint {
            $(#[doc = concat!("Type ", $number, ".")] $name($name),)*
        }

        /// The numbers of the types (§4.5).
        pub const TYPES: [u8; [$($number),*].len()] = [$($number),*];

        /// The numbers of the types that an edition of the table has (§16.2).
        pub fn types_in(edition: u8) -> Vec<u8> {
            let first = [$(($number, $edition)),*];
            first.into_iter().filter(|(_, first)| *first <= edition).map(|(number, _)| number).collect()
        }

        impl Constraint {
            /// The number of its type (§4.5).
            pub fn type_byte(&self) -> u8 {
                match self { $(Constraint::$name(_) => $number,)* }
            }

            /// The first edition of the table that has its type (§16.2).
            pub fn edition(&self) -> u8 {
                match self { $(Constraint::$name(_) => $edition,)* }
            }

            /// The name of its type in TADL2, without "Constraint".
            pub fn name(&self) -> &'static str {
                match self { $(Constraint::$name(_) => stringify!($name),)* }
            }

            /// What its type says of it.
            pub fn as_type(&self) -> &dyn RowType {
                match self { $(Constraint::$name(row) => row,)* }
            }

            /// The same, to change a field.
            pub fn as_type_mut(&mut self) -> &mut dyn RowType {
                match self { $(Constraint::$name(row) => row,)* }
            }

            /// The row of the type of this number with the fields that are given, if it is a type's and they are.
            pub fn read(number: u8, given: &mut dyn Given) -> Option<Constraint> {
                match number {
                    $($number => $name::read(given).map(Constraint::$name),)*
                    _ => None,
                }
            }

            /// The number of the type of this name.
            pub fn number_of(name: &str) -> Option<u8> {
                [$((stringify!($name), $number)),*].into_iter().find(|(one, _)| *one == name).map(|(_, number)| number)
            }

            /// An accepted row of the type of this number, if it is a type's.
            pub fn random(number: u8, draw: &mut Draw) -> Option<Constraint> {
                match number {
                    $($number => Some(Constraint::$name($name::random(draw))),)*
                    _ => None,
                }
            }
        }

        $(impl From<$name> for Constraint {
            fn from(row: $name) -> Constraint {
                Constraint::$name(row)
            }
        })*
    };
}

row_types! {
    // begin list: made by release/row-types.py
    1 => Delay from 1,
    2 => StrongDelay from 1,
    3 => Repeat from 1,
    4 => Sporadic from 1,
    5 => Burst from 1,
    6 => Order from 1,
    7 => StrongSynchronization from 1,
    8 => ExecutionTime from 1,
    9 => Reaction from 1,
    10 => Repetition from 1,
    11 => Synchronization from 2,
    12 => Age from 2,
    13 => OutputSynchronization from 2,
    14 => InputSynchronization from 2,
    15 => Pattern from 2,
    16 => Arbitrary from 2,
    17 => Comparison from 2,
    // end list
}

impl Constraint {
    /// The fields in the order of the bytes (§4.5).
    pub fn fields(&self) -> Vec<Field> {
        self.as_type().fields()
    }

    /// The kinds that the row names, in the order of its fields.
    pub fn kinds(&self) -> Vec<u8> {
        self.fields().iter().flat_map(Field::kinds).collect()
    }

    /// The streams that an accepted row looks at: its plain kinds, or each colour of its coloured ones.
    pub fn streams(&self) -> Vec<u8> {
        self.fields().iter().flat_map(Field::streams).collect()
    }

    /// The times in the fields, in their order.
    pub fn times(&self) -> Vec<u64> {
        self.fields().iter().flat_map(Field::times).collect()
    }

    /// The row's bytes behind its length field: the type, the n if it has one, the fields (§4.3, §4.5).
    ///
    /// # Panics
    /// Where a list is longer than a byte can say.
    pub fn body(&self) -> Vec<u8> {
        let fields = self.fields();
        let number = |field: &Field| field.number().map(|number| u8::try_from(number).expect("a number of one byte"));
        let first = std::iter::once(self.type_byte()).chain(fields.iter().find_map(number));
        first.chain(fields.iter().flat_map(Field::bytes)).collect()
    }

    /// How many wait in the row, if it is open (§6.1 to §6.4).
    pub fn waiting(&self, recorded: &History) -> usize {
        self.as_type().waiting(recorded)
    }

    /// The time and the stream of the oldest that waits in the row, if it is open (§15.18, §15.19).
    pub fn oldest(&self, recorded: &History) -> Option<(u64, u8)> {
        self.as_type().oldest(recorded)
    }
}
