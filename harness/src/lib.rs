//! An independent decoder and call controller, written from the paper alone,
//! with scripts of events and tables of cases to try a controller on.

pub mod books;
pub mod cases;
pub mod compose;
pub mod controller;
pub mod coverage;
mod damage;
pub mod decode;
pub mod exchange;
pub mod forms;
pub mod generate;
pub mod line;
pub mod messages;
pub mod numbers;
mod random;
pub mod rows;
pub mod shown;
pub mod trace;
pub mod types;
pub mod wrong;
