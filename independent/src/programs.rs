//! The proved programs, run as processes over files.

use crate::engine::SurveyCalls;
use std::fs;
use std::path::{Path, PathBuf};
use std::process::{self, Command};
use std::sync::atomic::{AtomicUsize, Ordering};

/// The program `survey`, and a folder for its files, which goes with it.
pub struct SurveyProgram {
    folder: PathBuf,
}

static FOLDERS: AtomicUsize = AtomicUsize::new(0);

impl Default for SurveyProgram {
    fn default() -> Self {
        let number = FOLDERS.fetch_add(1, Ordering::Relaxed);
        let folder = std::env::temp_dir().join(format!("haskumye-survey-{}-{number}", process::id()));
        fs::create_dir_all(&folder).expect("a folder for a survey's files");
        Self { folder }
    }
}

impl Drop for SurveyProgram {
    fn drop(&mut self) {
        let _ = fs::remove_dir_all(&self.folder);
    }
}

impl SurveyProgram {
    /// Writes a file, and gives its path.
    fn written(&self, name: &str, bytes: &[u8]) -> PathBuf {
        let path = self.folder.join(name);
        fs::write(&path, bytes).expect("a survey's file is written");
        path
    }
}

impl SurveyCalls for SurveyProgram {
    fn survey(&self, settings: &[u8], recordings: &[Vec<u8>]) -> String {
        let settings = self.written("settings", settings);
        let recordings = recordings.iter().enumerate().map(|(number, file)| self.written(&format!("recording-{number}"), file));
        let program = Path::new(env!("CARGO_MANIFEST_DIR")).join("../target/bin/survey");
        let output = Command::new(program)
            .arg(settings)
            .args(recordings)
            .output()
            .expect("target/bin/survey runs: scripts/programs survey makes it");
        assert!(output.status.success(), "survey: {}", output.status);
        String::from_utf8(output.stdout).expect("a survey's text")
    }
}
