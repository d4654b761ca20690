//! The calls of the proved checker and of the proved evaluator, plain second
//! readings of document 01, "Closed tableaux for region logic", of the evaluator
//! that tries a heap against a file's assumptions, and of the figures over a
//! night's replies, generators of files and of nights to compare them on, and
//! what the proved code is timed against: the yardstick and the tight reader.

pub mod byte_damage;
pub mod call;
pub mod checkers;
pub mod comparison;
pub mod evaluators;
pub mod generator;
pub mod heap_lines;
pub mod independent;
pub mod independent_closure;
pub mod independent_evaluator;
pub mod independent_figures;
pub mod meaning;
pub mod models;
pub mod name_parts;
pub mod nights;
pub mod numbers;
#[cfg(reading_alone)]
pub mod proved_reader;
pub mod random;
pub mod soundness;
pub mod tight_reader;
pub mod yardstick;
