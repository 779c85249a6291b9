//! SolveSpace's solver libslvs, made by others, on points and distances: what the proved library runs beside.

pub mod layout;
pub mod sheets;
pub mod solver;
