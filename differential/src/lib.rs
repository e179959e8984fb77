//! gix-date 0.18.1 beside the proved library.
//!
//! `oracle` gives the answers of gix-date, with the numbers of docs/RULES.md, which is cited as RULES, and `mark` the mark,
//! which gix-date does not have. `side` is what is compared with them. `texts` and `suites` make the inputs; `fence` holds
//! them; `ledger` compares and counts. `planted` has the mistakes that the comparison must find. The programs are `compare`,
//! `bench` and `sample`.

pub mod fence;
pub mod ledger;
pub mod mark;
pub mod oracle;
pub mod planted;
pub mod rng;
pub mod side;
pub mod suites;
pub mod texts;
