//! Counts comparisons and differences, and shows the first few differences.

/// How many differences are printed in full.
const SHOWN: u64 = 10;

#[derive(Default)]
pub struct Report {
    pub comparisons: u64,
    pub differences: u64,
    /// The differences of whole replies, which are among all of them.
    pub of_replies: u64,
    /// The failures that are no comparison, which are among all differences.
    pub failures: u64,
    quiet: bool,
}

impl Report {
    /// A report that prints no difference, only counts.
    pub fn quiet() -> Self {
        Report {
            quiet: true,
            ..Report::default()
        }
    }

    /// One comparison. `text` says what was compared, and is made only for a difference.
    pub fn same(&mut self, equal: bool, text: impl FnOnce() -> String) {
        self.comparisons += 1;
        if !equal {
            self.differences += 1;
            if self.differences <= SHOWN && !self.quiet {
                println!("difference: {}", text());
            }
        }
    }

    /// One comparison of whole replies, whose differences are counted apart too.
    pub fn same_reply(&mut self, equal: bool, text: impl FnOnce() -> String) {
        self.of_replies += u64::from(!equal);
        self.same(equal, text);
    }

    /// A failure that is no comparison, as a kind of chunk that was never met.
    pub fn fail(&mut self, text: String) {
        self.differences += 1;
        self.failures += 1;
        if !self.quiet {
            println!("difference: {text}");
        }
    }

    /// The last line of a run, and whether all was equal.
    pub fn close(&self) -> bool {
        println!(
            "compare: {} comparisons, {} differences",
            self.comparisons, self.differences
        );
        self.differences == 0
    }
}
