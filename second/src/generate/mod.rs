//! Seeded cases and inputs. Each is made from seed and index alone, so that any one can be made
//! again without those before it.

pub mod buffers;
pub mod cases;
pub mod damage;
pub mod faults;
pub mod graphs;
pub mod inputs;
pub mod limits;
pub mod parts;
pub mod queries;
pub mod random;
