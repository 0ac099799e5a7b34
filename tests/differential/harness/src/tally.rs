//! The count of a comparison, and the folder of what differed.

use std::fs;
use std::path::{Path, PathBuf};

pub struct Tally {
    pub name: String,
    pub equal: u64,
    pub different: u64,
    folder: PathBuf,
}

/// No more cases than this are kept of one comparison.
const MOST_KEPT: u64 = 100;

impl Tally {
    pub fn new(name: &str, folder: &Path) -> Self {
        Self { name: name.to_string(), equal: 0, different: 0, folder: folder.to_path_buf() }
    }

    /// Counts a case; one that differs is kept under the given file name.
    pub fn count(&mut self, same: bool, keep: impl FnOnce() -> (String, Vec<u8>)) {
        if same {
            self.equal += 1;
            return;
        }
        self.different += 1;
        if self.different <= MOST_KEPT {
            let (file, case) = keep();
            let folder = self.folder.join(self.name.replace(' ', "-"));
            fs::create_dir_all(&folder).expect("the folder of differing cases can be made");
            fs::write(folder.join(file), case).expect("a differing case can be kept");
        }
    }

    pub fn add(&mut self, other: Tally) {
        self.equal += other.equal;
        self.different += other.different;
    }

    /// Prints the count; true where nothing differed and something was equal.
    pub fn report(&self) -> bool {
        println!("{}: {} equal, {} different", self.name, self.equal, self.different);
        if self.different > 0 {
            println!("  kept in {}", self.folder.join(self.name.replace(' ', "-")).display());
        }
        self.different == 0 && self.equal > 0
    }
}

/// Runs the numbers `0..total` on two threads, each with a tally of its own.
pub fn on_two_threads(
    name: &str,
    folder: &Path,
    total: u64,
    work: impl Fn(&mut Tally, u64) + Sync,
) -> Tally {
    let half = |start: u64| {
        let mut tally = Tally::new(name, folder);
        for number in (start..total).step_by(2) {
            work(&mut tally, number);
        }
        tally
    };
    std::thread::scope(|scope| {
        let odd = scope.spawn(|| half(1));
        let mut tally = half(0);
        tally.add(odd.join().expect("a comparison does not panic"));
        tally
    })
}

/// Equal bits, or two NaNs.
pub fn same_float(a: f64, b: f64) -> bool {
    a.to_bits() == b.to_bits() || (a.is_nan() && b.is_nan())
}

pub fn same_floats(a: &[f64], b: &[f64]) -> bool {
    a.len() == b.len() && a.iter().zip(b).all(|(a, b)| same_float(*a, *b))
}
