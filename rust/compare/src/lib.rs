//! Two implementations of the reducer, compared call by call on generated models.
//!
//! [`suite::run`] makes cases from a seed; each case is a model and a list of calls on it. Every call
//! is made on both sides with equal buffers, and afterwards the returned numbers and *every* buffer
//! must be equal, the guard cells around them included. A case depends on the seed and its own number
//! only, so one that fails can be made again alone.
//!
//! | module | what |
//! |---|---|
//! | [`lent`] | what a call can be lent, the calls, and the trait of an implementation |
//! | [`models`] | families of accepted models: tiny and largest, dense and sparse, crawling, at the limits |
//! | [`damage`] | makes a call fail a chosen check at its boundary |
//! | [`cases`] | a case: a model, its calls, or one call that is refused |
//! | [`suite`] | the comparison |
//! | [`points`] | the integer points of a small model, before and after a tie |
//! | [`coverage`] | what the cases met |
//! | [`allocations`] | the same for the call on proposed allocations (02, C-21), in a module of its own |
//! | [`prepared`] | the same for prepared models: random walks in a tree |

pub mod allocations;
pub mod cases;
pub mod coverage;
pub mod damage;
pub mod lent;
pub mod models;
pub mod points;
pub mod prepared;
pub mod rng;
pub mod suite;
