//! The planning side of the corner turn, written from the pages in `docs/` alone.

pub mod answers;
pub mod assignment;
pub mod cases;
pub mod causes;
pub mod drawing;
pub mod job;
pub mod judge;
pub mod layout;
pub mod lists;
pub mod making;
pub mod mistakes;
pub mod planning;
pub mod report;
pub mod sheet;
pub mod tariff;
pub mod text;
pub mod words;
