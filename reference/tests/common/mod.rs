//! Parts of the comparison with the library.

pub mod cases;
pub mod conversions;
pub mod coverage;
pub mod first_edition;
pub mod forms;
pub mod generate;
pub mod repairs;
pub mod rows;
pub mod sweeps;
