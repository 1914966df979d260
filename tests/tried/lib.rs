//! Tests that run without a proof, in one module for each subject.
#![tactic(auto)]

#[cfg(test)]
mod discover;
#[cfg(test)]
mod files;
#[cfg(test)]
mod history;
#[cfg(test)]
mod library;
#[cfg(test)]
mod resolve;
#[cfg(test)]
mod revtool;
#[cfg(test)]
mod shared;
