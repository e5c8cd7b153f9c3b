//! Stand-in for the crate's own `canonical_float.rs`, which is not to be had. Only the module must exist:
//! nothing under `cpc` uses what stood here.
