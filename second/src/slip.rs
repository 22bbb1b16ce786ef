//! The easy errors of this trade (RULES 12.1), of the slack (RULES 15.10) and of paths from a register to itself (RULES
//! 16.13), by name. `wrong` has the programs that make them.

#[derive(Clone, Copy, Debug, PartialEq, Eq)]
pub enum Slip {
    /// In the first two tables: the period is put into the hold rule.
    HoldPeriod,
    RoundDown,
    Shifted,
    WorstPath,
    SetupOnly,
    Strict,
    HoldTurned,
    CutOff,
    OneOff,
    LowTail,
    UncertaintySign,
    DelaysExchanged,
    SenderCharged,
    TimesExchanged,
    /// u is charged everywhere, as it was before request 2026-02.
    SelfHoldCharged,
    HostHoldCharged,
    SelfSetupUncharged,
    HoldUncharged,
    WayBack,
    EqualLatencies,
    SelfHoldMissing,
}

impl Slip {
    /// The errors of RULES 12.1 first, then those of RULES 15.10 that are not among them, then those of RULES 16.13.
    pub const ALL: [Slip; 21] = [
        Slip::HoldPeriod,
        Slip::RoundDown,
        Slip::Shifted,
        Slip::WorstPath,
        Slip::SetupOnly,
        Slip::Strict,
        Slip::HoldTurned,
        Slip::CutOff,
        Slip::OneOff,
        Slip::LowTail,
        Slip::UncertaintySign,
        Slip::DelaysExchanged,
        Slip::SenderCharged,
        Slip::TimesExchanged,
        Slip::SelfHoldCharged,
        Slip::HostHoldCharged,
        Slip::SelfSetupUncharged,
        Slip::HoldUncharged,
        Slip::WayBack,
        Slip::EqualLatencies,
        Slip::SelfHoldMissing,
    ];

    pub fn name(self) -> &'static str {
        match self {
            Slip::HoldPeriod => "hold-period",
            Slip::RoundDown => "round-down",
            Slip::Shifted => "shifted",
            Slip::WorstPath => "worst-path",
            Slip::SetupOnly => "setup-only",
            Slip::Strict => "strict",
            Slip::HoldTurned => "hold-turned",
            Slip::CutOff => "cut-off",
            Slip::OneOff => "one-off",
            Slip::LowTail => "low-tail",
            Slip::UncertaintySign => "u-sign",
            Slip::DelaysExchanged => "delays-exchanged",
            Slip::SenderCharged => "sender-charged",
            Slip::TimesExchanged => "times-exchanged",
            Slip::SelfHoldCharged => "self-hold-charged",
            Slip::HostHoldCharged => "host-hold-charged",
            Slip::SelfSetupUncharged => "self-setup-uncharged",
            Slip::HoldUncharged => "hold-uncharged",
            Slip::WayBack => "way-back",
            Slip::EqualLatencies => "equal-latencies",
            Slip::SelfHoldMissing => "self-hold-missing",
        }
    }

    pub fn named(name: &str) -> Option<Slip> {
        Slip::ALL.into_iter().find(|slip| slip.name() == name)
    }

    /// Whether the error gives wrong schedules. Those of RULES 15.10 alone are in the question's sum alone, and so is
    /// the one that goes by a question's latencies.
    pub fn touches_solves(self) -> bool {
        use Slip::*;
        let in_the_sum = matches!(self, HoldTurned | CutOff | OneOff | LowTail | UncertaintySign)
            || matches!(self, DelaysExchanged | SenderCharged | TimesExchanged);
        !in_the_sum && self != EqualLatencies
    }

    /// Whether the error gives wrong answers to the rule question.
    pub fn touches_questions(self) -> bool {
        !matches!(self, Slip::RoundDown | Slip::Shifted | Slip::WorstPath | Slip::SetupOnly)
    }
}
