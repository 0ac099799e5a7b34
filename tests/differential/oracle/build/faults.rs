//! Small faults to plant in the oracle's copy, one at a time.

mod reader_faults;
mod source_faults;

pub struct Fault {
    pub name: &'static str,
    /// A file of the source, or one of the oracle's own.
    pub file: &'static str,
    /// Text that stands there once, after the substitutions.
    pub find: &'static str,
    pub replace: &'static str,
    /// False for a change that gives every job the same answer.
    pub shows: bool,
}

const fn fault(
    name: &'static str,
    file: &'static str,
    find: &'static str,
    replace: &'static str,
) -> Fault {
    Fault { name, file, find, replace, shows: true }
}

pub fn faults() -> impl Iterator<Item = &'static Fault> {
    source_faults::FAULTS.iter().chain(reader_faults::FAULTS)
}
