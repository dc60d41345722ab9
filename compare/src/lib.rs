//! The proved engine's library held against the reference engine, call by
//! call.
//!
//! | module     | what it holds                                            |
//! |------------|----------------------------------------------------------|
//! | `timo`     | the library's declarations, and a safe interface to them |
//! | `table`    | the reference engine's view of a table                   |
//! | `agree`    | whether both say the same                                |
//! | `reading`  | a text through both readers, under what is given with it |
//! | `alike`    | `same` on networks made from one another                 |
//! | `tables`   | tables of every sort, made by hand, through both engines |
//! | `differ`   | a script and a list of calls through both engines        |
//! | `both`     | a network in both engines, and calls on it by both       |
//! | `exchange` | two whole steps in either order through both engines     |
//! | `profile`  | every whole step at a location through both engines      |
//! | `shrink`   | a smaller script and list that still show a difference   |
//! | `load`     | workloads of the benchmark, and how they are timed       |

pub mod agree;
pub mod alike;
pub mod both;
pub mod differ;
pub mod exchange;
pub mod load;
pub mod profile;
pub mod reading;
pub mod shrink;
pub mod table;
pub mod tables;
pub mod timo;
