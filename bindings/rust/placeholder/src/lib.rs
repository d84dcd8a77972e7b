//! Stands in the place of serde where artmap is built by itself, so that this needs no registry. It has no text.
compile_error!(
    "the feature `serde` is for crates that depend on artmap: in artmap's own folder no registry is asked for serde"
);
