// The engines of others, where they are installed.
use crate::engines::Maker;

/// What is missing, and the package that has it.
pub fn missing() -> Vec<&'static str> {
    let mut missing = Vec::new();
    if cfg!(not(aho_corasick)) {
        missing.push("Rust's aho-corasick 0.7 (Debian: librust-aho-corasick-dev)");
    }
    if cfg!(not(hyperscan)) {
        missing.push("Hyperscan (Debian: libhyperscan-dev)");
    } else if hyperscan().is_empty() {
        missing.push("Hyperscan (this processor lacks what it needs)");
    }
    missing
}

#[cfg(aho_corasick)]
pub fn aho_corasick() -> Vec<Maker> {
    vec![Maker {
        name: crate::engines::AHO_CORASICK,
        make: |tags| Box::new(crate::aho_corasick_peer::Dfa::new(tags)),
    }]
}

#[cfg(not(aho_corasick))]
pub fn aho_corasick() -> Vec<Maker> {
    Vec::new()
}

#[cfg(hyperscan)]
pub fn hyperscan() -> Vec<Maker> {
    use crate::hyperscan_peer::{runs_here, Hyperscan};
    let maker = Maker {
        name: crate::engines::HYPERSCAN,
        make: |tags| Box::new(Hyperscan::new(tags)),
    };
    if runs_here() {
        vec![maker]
    } else {
        Vec::new()
    }
}

#[cfg(not(hyperscan))]
pub fn hyperscan() -> Vec<Maker> {
    Vec::new()
}
