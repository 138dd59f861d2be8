//! What the three kinds of comparison share: sequences of a board's calls ([`Tally`](crate::tally::Tally)), list files taken from
//! one edition to the other ([`Conversions`](crate::packing::Conversions)), and pictures
//! ([`Pictures`](crate::pictures::Pictures)).

/// A kind of comparison, as the counts of what came up in it.
pub trait Compared: Default + Send + 'static {
    /// What one seed plays.
    const UNIT: &'static str;
    /// What is counted of it.
    const CALLS: &'static str;
    /// The program's word that plays one seed.
    const REPLAY: &'static str;

    /// Plays what a seed begins; with `shows` its calls are printed. The error says what differs, and where.
    fn play(&mut self, seed: u64, shows: bool) -> Result<(), String>;

    /// All calls so far.
    fn calls(&self) -> u64;

    /// Adds other counts to these.
    fn add(&mut self, other: &Self);

    /// Each thing that has to come up, and whether it did.
    fn coverage(&self) -> Vec<(String, bool)>;

    /// Prints the counts.
    fn print(&self);
}
