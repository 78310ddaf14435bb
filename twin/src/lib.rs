//! The independent twin: the rules of docs/RULES.md implemented a second time,
//! with no look at the Rattle code, to be compared byte for byte with the
//! proved `daylist` and `dispatchlist`. Names such as `line-2` in comments are those of the rules.

pub mod area;
pub mod arriving;
pub mod call;
pub mod ground;
pub mod hop;
pub mod leaving;
pub mod limits;
pub mod link;
pub mod mid;
pub mod numbers;
pub mod packet;
pub mod prefix;
pub mod prefix_list;
pub mod reply;
pub mod table;

pub mod listing;
pub mod read;
pub mod replay;
pub mod requests;
pub mod write;

pub mod alike;
pub mod compare;
pub mod conditions;
pub mod edges;
pub mod generate;
pub mod orders;
pub mod pairs;
pub mod program;
pub mod resolving;
pub mod several;
pub mod thousands;
