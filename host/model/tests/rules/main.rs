//! The model against document 01's rules, its own run, and what is stored in the repository.

mod collect;
mod common;
mod depth;
mod document_run;
mod host_call;
mod host_cases;
mod image;
mod refusals;
mod runs;
