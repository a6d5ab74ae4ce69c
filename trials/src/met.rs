//! A count of what random trials above the store meet.

/// What must be met: its name, the answer, and which of those that are so answered meet it.
pub type Scene<T> = (&'static str, u32, fn(&T) -> bool);

/// How often each scene was met.
pub struct Met<T>(Vec<(Scene<T>, u64)>);

impl<T> Met<T> {
    /// None was met yet of the scenes of some tables.
    pub fn new(tables: &[&[Scene<T>]]) -> Met<T> {
        let scenes = tables.iter().copied().flatten();
        Met(scenes.map(|scene| (*scene, 0)).collect())
    }

    /// Counts what was tried and its answer's code.
    pub fn note(&mut self, tried: &T, code: u32) {
        for ((_, answer, meets), count) in &mut self.0 {
            *count += u64::from(*answer == code && meets(tried));
        }
    }

    /// Every scene with its answer and its count.
    pub fn counts(&self) -> impl Iterator<Item = (&'static str, u32, u64)> + '_ {
        self.0.iter().map(|((scene, code, _), count)| (*scene, *code, *count))
    }
}
