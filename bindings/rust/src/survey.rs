//! Surveys: what a site's recordings come to, by port and by reason.

use crate::answer::{done, Refusal};
use crate::raw::{self, COUNTER_COUNT, REFUSAL_COUNT, SURVEY_LINES, TABLE_SIZE, TEXT_SIZE};

// SAFETY of every call below: what crosses is a borrow, as `raw` asks, and borrows do not overlap.

/// A survey of up to [`crate::RECORDING_LIMIT`] recordings, each from a fresh relay with the same settings.
///
/// ```
/// let mut survey = haskumye::Survey::begin(&haskumye::Relay::fresh(&[7; 16]).save())?;
/// survey.add(&[1, 1, 0, 0])?; // a recording without packets
/// assert!(survey.add(&[]).is_err());
/// assert!(survey.text().starts_with("survey\nrecording 2 refused 20\nport 0 packets 0 in 0 out 0 dropped 0/1\n"));
/// # Ok::<(), haskumye::Refusal>(())
/// ```
#[derive(Clone, Debug, PartialEq, Eq)]
pub struct Survey {
    start: Box<raw::Tables>,
    work: Box<raw::Tables>,
    counts: raw::SurveyCounts,
    refusals: raw::SurveyRefusals,
}

impl Survey {
    /// Begins a survey by a saved relay, of which own address, ports, announce rate and local addresses count. Refusals 20, 21, 22 and 24.
    pub fn begin(settings: &[u8]) -> Result<Self, Refusal> {
        let tables = || vec![0; TABLE_SIZE].into_boxed_slice().try_into().expect("bytes of that number");
        let mut survey = Self { start: tables(), work: tables(), counts: [0; COUNTER_COUNT], refusals: [0; REFUSAL_COUNT] };
        let Self { start, work, counts, refusals } = &mut survey;
        done(unsafe { raw::haskumye_survey_begin(settings.as_ptr(), settings.len(), &mut **start, &mut **work, counts, refusals) })?;
        Ok(survey)
    }

    /// Replays a recording, and counts what it comes to. Refusal 29 for a 17th, which is not read; else 20, 21, 22 and 23. A refusal has a line in
    /// the text, and nothing is counted.
    pub fn add(&mut self, recording: &[u8]) -> Result<(), Refusal> {
        let Self { start, work, counts, refusals } = self;
        done(unsafe { raw::haskumye_survey_recording(recording.as_ptr(), recording.len(), &**start, &mut **work, counts, refusals) })
    }

    /// The line at a place below [`SURVEY_LINES`], with its line feed; nothing at the place of a recording that was not refused.
    fn line(&self, place: usize) -> String {
        let mut line = [0; TEXT_SIZE];
        let length = unsafe { raw::haskumye_survey_line(&self.counts, &self.refusals, place as u64, &mut line) };
        String::from_utf8_lossy(&line[..length]).into()
    }

    /// The whole text: `survey`, a line for each refused recording, for each port and for each test.
    pub fn text(&self) -> String {
        (0..SURVEY_LINES).map(|place| self.line(place)).collect()
    }
}
