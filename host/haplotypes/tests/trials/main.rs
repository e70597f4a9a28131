//! Trials of the eight services, as tables: a row has a name, the input in letters, and the outcome and the bytes that
//! are expected. These are written out from the definitions of papers 01 and 02, by hand or by an argument that stands
//! beside the table, and never taken from a run.

mod answers;
mod calls;
mod counts;
mod depths;
mod expected;
mod faults;
mod find;
mod fixtures;
mod full;
mod grades;
mod mates;
mod no_calls;
mod order;
mod out_of_order;
mod records;
mod sizes;
mod spans;
mod weights;
