// The calls again as plain Rust, in a crate of their own: what the compiler knows of them where they are called is what it
// knows of the engine's calls, a name and figures.
pub mod answers;
pub mod copying;
pub mod in_place;
