//! A survey of recordings: by the independent program here, by the proved program and the library's calls in `linked`.

use crate::relay::Relay;
use crate::rules::Rules;
use crate::survey;

pub trait SurveyCalls {
    /// All that is printed of a settings file and recordings.
    fn survey(&self, settings: &[u8], recordings: &[Vec<u8>]) -> String;
}

impl<R: Rules> SurveyCalls for Relay<R> {
    fn survey(&self, settings: &[u8], recordings: &[Vec<u8>]) -> String {
        survey::survey(self, settings, recordings)
    }
}
