//! What the cases are made of: sheets, programs, streams, and the damage done to them. Everything comes from one seed.

pub mod corners;
pub mod damage;
pub mod days;
pub mod declarations;
pub mod limits;
pub mod programs;
pub mod sheets;
pub mod streams;
