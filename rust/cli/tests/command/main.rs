//! The command as users run it.

mod dialects;
mod entries;
mod fields;
mod join;
mod manners;
mod memory;
mod outputs;
mod pairs;
mod paths;
mod pcap;
mod plan;
mod running;
mod seal;
mod sealed_join;
mod terminals;
mod texts;
mod r#where;
