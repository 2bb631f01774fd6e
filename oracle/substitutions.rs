// Everything that is changed in manta's two files before the oracle builds them. Nothing else is.
//
// Each line says in which file, how often it must apply, and what it does. build.rs stops with the line's
// number of times and the number found where the two differ.

/// One of manta's two files, by its name below crates/manta-decode/src.
#[derive(Clone, Copy, PartialEq)]
pub enum File {
    Timing,
    Bank,
}

/// What a substitution does.
pub enum Change {
    /// The first text becomes the second, wherever it stands.
    Replace(&'static str, &'static str),
    /// Each line that begins so, after its indent, gets `pub(crate) ` before it: it can be read from outside.
    Open(&'static str),
}

pub struct Substitution {
    pub file: File,
    pub times: usize,
    pub change: Change,
}

use Change::{Open, Replace};
use File::{Bank, Timing};

const fn change(file: File, times: usize, change: Change) -> Substitution {
    Substitution {
        file,
        times,
        change,
    }
}

pub const SUBSTITUTIONS: &[Substitution] = &[
    // The Rust's `ln` has no body that could be proved against: document 01 gives the one that stands in for it.
    change(Timing, 0, Replace(".ln()", ".ln01()")),
    change(Bank, 5, Replace(".ln()", ".ln01()")),
    change(Bank, 1, Replace("use std::collections::VecDeque;", "use crate::log01::Ln01;\nuse std::collections::VecDeque;")),
    // What serde derives: the oracle has no dependency, and nothing is read from or written to JSON.
    change(Timing, 2, Replace(", serde::Serialize, serde::Deserialize", "")),
    change(Timing, 2, Replace("#[serde(rename_all = \"camelCase\")]\n", "")),
    change(Bank, 0, Replace("serde", "serde")),
    // A name for each hypothesis, so that it can be followed; the Rust neither reads nor writes it. One that is made has none.
    change(Bank, 1, Replace("    ln_lo: f32,\n    ln_hi: f32,\n}", "    ln_lo: f32,\n    ln_hi: f32,\n    pub(crate) name: Option<usize>,\n}")),
    change(Bank, 1, Replace("            ln_lo,\n            ln_hi,\n        }", "            ln_lo,\n            ln_hi,\n            name: None,\n        }")),
    // A bank that is held before it prunes, so that who came can be told from who left; it is never held where it is compared.
    change(Bank, 1, Replace("    log: VecDeque<SwitchRecord>,\n}", "    log: VecDeque<SwitchRecord>,\n    pub(crate) held: bool,\n}")),
    change(Bank, 1, Replace("            log: VecDeque::new(),\n        }", "            log: VecDeque::new(),\n            held: false,\n        }")),
    change(Bank, 1, Replace("    fn prune(&mut self, primary: &SpeedTracker) {\n", "    fn prune(&mut self, primary: &SpeedTracker) {\n        if self.held {\n            return;\n        }\n")),
    // Opened: the module, ClusterPair and its fields.
    change(Timing, 1, Open("mod bank;")),
    change(Timing, 1, Open("struct ClusterPair {")),
    change(Timing, 1, Open("lo: f32,")),
    change(Timing, 1, Open("hi: f32,")),
    change(Timing, 1, Open("init: Vec<f32>,")),
    change(Timing, 1, Open("ready: bool,")),
    change(Timing, 1, Open("confirmed: bool,")),
    change(Timing, 1, Open("placeholder_is_lo: bool,")),
    change(Timing, 1, Open("unimodal_ceiling: Option<f32>,")),
    change(Timing, 1, Open("lo_n: usize,")),
    // SpeedTracker's fields. `pair` is GapClassifier's too.
    change(Timing, 2, Open("pair: ClusterPair,")),
    change(Timing, 1, Open("ring: VecDeque<(f32, bool, f32, f32)>,")),
    change(Timing, 1, Open("wpm_ema: Option<f32>,")),
    change(Timing, 1, Open("recent: VecDeque<f32>,")),
    change(Timing, 1, Open("mu_egap_ms: Option<f32>,")),
    change(Timing, 1, Open("ratio_hint: Option<f32>,")),
    change(Timing, 1, Open("regime: u32,")),
    change(Timing, 1, Open("badlock_recovered: bool,")),
    change(Timing, 1, Open("lo_uncorroborated: bool,")),
    // SenderTiming's statistics.
    change(Timing, 1, Open("struct ClassStats {")),
    change(Timing, 1, Open("mean: f32,")),
    change(Timing, 1, Open("var: f32,")),
    change(Timing, 1, Open("n: u32,")),
    change(Timing, 1, Open("stats: [ClassStats; 5],")),
    // Origin, and TimingHypothesis's fields.
    change(Bank, 1, Open("enum Origin {")),
    change(Bank, 1, Open("tracker: SpeedTracker,")),
    change(Bank, 1, Open("score: f32,")),
    change(Bank, 1, Open("gap_score: f32,")),
    change(Bank, 1, Open("lead_marks: u32,")),
    change(Bank, 1, Open("age_marks: u32,")),
    change(Bank, 1, Open("origin: Origin,")),
    change(Bank, 1, Open("reported: bool,")),
    change(Bank, 1, Open("ln_lo: f32,")),
    change(Bank, 1, Open("ln_hi: f32,")),
    // TimingBank's fields.
    change(Bank, 1, Open("cfg: SpeedBankConfig,")),
    change(Bank, 1, Open("primary_score: f32,")),
    change(Bank, 1, Open("primary_gap_score: f32,")),
    change(Bank, 1, Open("challengers: Vec<TimingHypothesis>,")),
    change(Bank, 1, Open("streak: Vec<f32>,")),
    change(Bank, 1, Open("streak_gaps: Vec<f32>,")),
    change(Bank, 1, Open("streak_side: Option<bool>,")),
    change(Bank, 1, Open("last_gap: Option<f32>,")),
    change(Bank, 1, Open("marks_seen: u64,")),
    change(Bank, 1, Open("gaps_seen: u64,")),
    change(Bank, 1, Open("pending: Option<usize>,")),
    change(Bank, 1, Open("log: VecDeque<SwitchRecord>,")),
    // How a rival is made from marks, and the other reading of an unconfirmed lock.
    change(Bank, 1, Open("fn from_marks(")),
    change(Bank, 1, Open("fn three_to_one_alternative(")),
    change(Bank, 1, Open("fn ln_centroids(")),
    change(Bank, 1, Open("fn duplicates(")),
];
