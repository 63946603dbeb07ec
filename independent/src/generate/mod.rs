//! Pseudo-random requests for the probe protocol and pseudo-random jobs, for
//! comparing implementations. Every request follows from the seed and its own
//! index alone.
//!
//! Good and damaged inputs are mixed so that about half are accepted and every
//! refusal number and every field kind with every qualifier occurs often.

mod catalogues;
mod empty_salts;
mod jobs;
mod limits;
mod random;
mod requests;
mod salts;
mod stanzas;
mod stored;
mod texts;
mod type_names;
mod values;

pub use jobs::job;
pub use limits::limit_requests;
pub use requests::{judge_requests, print_requests, read_requests};
pub use salts::salt_requests;
pub use stored::stored_requests;
pub use type_names::catalogue_requests;
