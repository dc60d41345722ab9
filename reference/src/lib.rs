//! A reference engine for TiMo, written from document 01, from Tables 1 and 2 of
//! source document 001 and from document 02's.
//!
//! Terms carry their names as strings and own their sub-terms; values are put
//! in by substitution; an action builds new terms. The calls know no table, no
//! environment and, inside the rules, no limit; `table` and `layout` are there
//! for other engines' tables.
//!
//! | module      | what it holds                                               |
//! |-------------|-------------------------------------------------------------|
//! | `term`      | timers, editions, rights, parts, components, messages       |
//! | `refusal`   | the numbered questions                                      |
//! | `reading`   | from bytes to a network, questions 21 and 1 to 7            |
//! | `writing`   | from terms to text                                          |
//! | `rules`     | actions with labels, the forced test, the tick              |
//! | `profile`   | when a location conforms                                    |
//! | `calls`     | the outward calls with questions 8 to 16, 18, 20 and 26     |
//! | `table`     | question 17 of a table, and the network that it stands for  |
//! | `layout`    | a network laid out as a table                               |
//! | `runs`      | the straight and the grouped run and what is claimed        |
//! | `steps`     | whole steps that the rules perform                          |
//! | `exchange`  | two whole steps in either order and what is claimed         |
//! | `outcomes`  | every whole step at a location and what is claimed          |
//! | `tally`     | how many there were of each sort                            |
//! | `program`   | what `timorun` does, on any input and output                |
//! | `lists`     | call lists as text                                          |
//! | `rights`    | rights as text                                              |
//! | `printout`  | the answers to a call list, line by line                    |
//! | `random`    | a small seeded generator of numbers                         |
//! | `generate`  | scripts, rights, call lists and what a host writes          |
//! | `deep`      | a big stack for terms read without limits                   |
//! | `trials`    | long tests on both cores                                    |

pub mod calls;
pub mod deep;
pub mod exchange;
pub mod generate;
pub mod layout;
pub mod lists;
pub mod outcomes;
pub mod printout;
pub mod profile;
pub mod program;
pub mod random;
pub mod reading;
pub mod refusal;
pub mod rights;
pub mod rules;
pub mod runs;
pub mod steps;
pub mod table;
pub mod tally;
pub mod term;
pub mod trials;
pub mod writing;
