//! A store of tallies by docket, each a count and a price, in two tables of words that the caller lends. Every call is proved: on tables
//! of any content, and with any numbers, it ends without fault and answers as said here. Erased tallies are proved gone.
//!
//! ```
//! use guontrem::{entry_words, level_words, Settings, Store, Tally, MAX_DOCKET};
//!
//! let mut entries = [0; entry_words(40)];
//! let mut levels = [0; level_words(3)];
//! let settings = Settings { deepest: 3, ratio: 2, buffer: 4, term: 60 };
//! let mut store = Store::make(&mut entries, &mut levels, settings)?;
//! store.put(1, 1200, Tally { count: 10800, price: 1944 })?;
//! store.put(4, 1201, Tally { count: 10620, price: 1912 })?;
//! assert_eq!(store.lookup(1200)?.map(|found| found.tally), Some(Tally { count: 10800, price: 1944 }));
//! assert_eq!(store.grower().lookup(1200)?.map(|seen| seen.count), Some(10800));
//! store.delete(30, 1200)?;
//! assert_eq!(store.lookup(1200)?, None);
//! assert!(store.view().live(0, MAX_DOCKET)?.map(|row| row.docket).eq([1201]));
//! # Ok::<(), guontrem::Refusal>(())
//! ```
//!
//! [`Store`] lends both tables for writing, [`View`] for reading alone, and [`Grower`] for reading counts and stamps without a price.
//! Answers and [`Refusal`] are `#[non_exhaustive]`: they may get
//! more fields and more cases, so a caller reads the fields by name and has a case for what it does not know.
#![no_std]
#![deny(missing_docs)]

mod answers;
mod ffi;
mod grower;
mod live;
mod refusal;
mod settings;
mod store;
mod view;

pub use answers::{Count, CountRow, Found, Passed, Row, Scanned, Tally};
pub use grower::Grower;
pub use live::Live;
pub use refusal::Refusal;
pub use settings::{entry_words, level_words, Settings, MAX_DOCKET, MAX_SLOTS};
pub use store::Store;
pub use view::{check, View};
