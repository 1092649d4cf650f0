//! 01, "Faults seen in code of this trade", two that weights bring, one of boxed coins, three of FINISHes (02, N11, N12 and
//! N6), and two against what sets hold (N9): built in on request, so that a test can show that it finds them. And the AUX of 01
//! that N2 replaced.

/// A fault that a session is opened with. Everything but a test takes `None`.
#[derive(Clone, Copy, Debug, Default, PartialEq, Eq)]
pub enum Fault {
    #[default]
    None,
    /// Exit 2 with a vote open.
    OpenVote,
    /// ta where ts belongs.
    TaForTs,
    /// Half of S taken as a majority.
    HalfIsMajority,
    /// Two ECHOs of one liar counted as two senders.
    RepeatedEcho,
    /// AUXs counted whose value is not accepted.
    UnacceptedAux,
    /// The majority of Exit 2 taken of the instances in S, not of their weight.
    HeadMajority,
    /// Concentrators counted, whatever their weights, in all thresholds.
    Heads,
    /// A move that does not wait for the recorded bit, and takes 0 for it.
    UnrecordedCoin,
    /// An undecided vote finished on FINISHes of ta, which liars alone can send.
    FinishOnTa,
    /// Two FINISHes of one liar counted as two senders.
    RepeatedFinish,
    /// FINISHes of the other value counted for the one that is delivered.
    MixedFinishes,
    /// A vote started with 1 before its broadcast has output, once its SEND is held.
    EarlyStart,
    /// Exit 3 takes the broadcasts that are not in S, where there are any, once all n have output.
    OutsideS,
    /// No fault, and not in [`Fault::ALL`]: an AUX of 0 wherever 0 is accepted, as 01 had it before N2. It keeps every claim, and
    /// shows what N2 changes.
    ZeroBeforeOne,
}

impl Fault {
    /// Those that lead to a violation, after `None`.
    pub const ALL: [Fault; 14] = [
        Fault::None,
        Fault::OpenVote,
        Fault::TaForTs,
        Fault::HalfIsMajority,
        Fault::RepeatedEcho,
        Fault::UnacceptedAux,
        Fault::HeadMajority,
        Fault::Heads,
        Fault::UnrecordedCoin,
        Fault::FinishOnTa,
        Fault::RepeatedFinish,
        Fault::MixedFinishes,
        Fault::EarlyStart,
        Fault::OutsideS,
    ];

    /// The name taken on a command line.
    pub fn name(self) -> &'static str {
        match self {
            Fault::None => "none",
            Fault::OpenVote => "open-vote",
            Fault::TaForTs => "ta-for-ts",
            Fault::HalfIsMajority => "half-is-majority",
            Fault::RepeatedEcho => "repeated-echo",
            Fault::UnacceptedAux => "unaccepted-aux",
            Fault::HeadMajority => "head-majority",
            Fault::Heads => "heads",
            Fault::UnrecordedCoin => "unrecorded-coin",
            Fault::FinishOnTa => "finish-on-ta",
            Fault::RepeatedFinish => "repeated-finish",
            Fault::MixedFinishes => "mixed-finishes",
            Fault::EarlyStart => "early-start",
            Fault::OutsideS => "outside-s",
            Fault::ZeroBeforeOne => "zero-before-one",
        }
    }

    pub fn from_name(name: &str) -> Option<Fault> {
        Fault::ALL.into_iter().find(|fault| fault.name() == name)
    }
}
