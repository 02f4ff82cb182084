//! The reference calculation's tests, as one program.

mod amounts;
mod bands;
mod by_hand;
mod closings;
mod consulta;
mod direct;
mod files;
mod line_ends;
mod runs;
mod sisters;
mod skipped;
mod tables;
mod vectors;
