//! The original crate behind plain numbers (`arrays`) and behind lines of text (`jobs`).
pub mod arrays;
pub mod jobs;
