// SPDX-License-Identifier: MIT OR Apache-2.0
//! The refusals, with a text each.
use std::fmt;

/// Why a call was refused. As text it says what was wrong and what it left:
///
/// ```
/// # use gauss_jackson::Refusal;
/// assert!(Refusal::SampleRoom.to_string().ends_with("(refusal 6)"));
/// ```
#[derive(Debug, Clone, Copy, PartialEq, Eq, Hash)]
#[non_exhaustive]
pub enum Refusal {
    /// At a start or a forecast: the span is shorter than eight steps. At a plain start also: the step is zero.
    StepNotFinite,
    /// At an answer: a further step is due and `max_steps` are made. The run has ended; its samples stay.
    MaxStepsExceeded,
    /// At an interpolation: fewer than two samples.
    NoDenseOutput,
    /// At an interpolation: a time outside the samples.
    InterpOutOfBounds,
    /// At a start or a forecast: a setting over its limit.
    Setting,
    /// At an answer: the samples due now do not all fit, or the first of them stands before the room's. The run has ended; this call wrote none.
    SampleRoom,
    /// At an answer, for the open question or at a storing: the run has ended.
    NoQuestion,
    /// At an answer: the number is not the open question's. The run waits as before.
    NotThatQuestion,
    /// At an interpolation: the numbers of the samples are not in tens.
    Shape,
    /// At a loading: not 2,048 bytes, or a block's number or check is wrong.
    StoredShape,
    /// At a loading: the blocks are whole, but hold no run.
    StoredContent,
    /// At a start or a forecast: `t0`, `tf` or the step is a NaN or an infinity.
    BlankDate,
    /// At a whole-second start or a forecast: `t0`, `tf` or the step is no whole number, or beyond the bounds of that profile.
    NotWhole,
    /// At a whole-second start or a forecast: `max_steps` is below the steps that the run takes.
    TooFewSteps,
    /// No call of the library gives it. The program `forecast`: a question's distance is below 1 km, or NaN.
    TooLow,
    /// Nor this. The program `forecast`: a line of its input is missing, one too many, or misshapen.
    InputLine,
    /// A number that this crate has no name for: the library is newer than the crate.
    Other(u16),
}

/// Each with its number; 16 to 18 are nobody's yet.
const NAMED: [(u16, Refusal); 16] = [
    (1, Refusal::StepNotFinite),
    (2, Refusal::MaxStepsExceeded),
    (3, Refusal::NoDenseOutput),
    (4, Refusal::InterpOutOfBounds),
    (5, Refusal::Setting),
    (6, Refusal::SampleRoom),
    (7, Refusal::NoQuestion),
    (8, Refusal::NotThatQuestion),
    (9, Refusal::Shape),
    (10, Refusal::StoredShape),
    (11, Refusal::StoredContent),
    (12, Refusal::BlankDate),
    (13, Refusal::NotWhole),
    (14, Refusal::TooFewSteps),
    (15, Refusal::TooLow),
    (19, Refusal::InputLine),
];

impl Refusal {
    /// The refusal of a number, such as the last line that the program `forecast` printed. A number that has no name here is [`Refusal::Other`].
    ///
    /// ```
    /// # use gauss_jackson::Refusal;
    /// assert_eq!(Refusal::from_number(15), Refusal::TooLow);
    /// assert_eq!(Refusal::from_number(19).to_string(), "a line of the input is missing, one too many, or misshapen (refusal 19)");
    /// ```
    #[must_use]
    pub fn from_number(number: u16) -> Refusal {
        let found = NAMED.iter().find(|(its, _)| *its == number);
        found.map_or(Refusal::Other(number), |(_, refusal)| *refusal)
    }

    /// What a call tells that writes or refuses: 0, or a refusal's number.
    pub(crate) fn told(number: u32) -> Result<(), Refusal> {
        match number {
            0 => Ok(()),
            number => Err(Refusal::from_number(number as u16)),
        }
    }

    /// The number that the C header has for it.
    ///
    /// ```
    /// # use gauss_jackson::Refusal;
    /// assert_eq!(Refusal::SampleRoom.number(), 6);
    /// ```
    #[must_use]
    pub fn number(self) -> u16 {
        match self {
            Refusal::Other(number) => number,
            named => NAMED.iter().find(|(_, refusal)| *refusal == named).map_or(0, |(number, _)| *number),
        }
    }

    fn text(self) -> &'static str {
        match self {
            Refusal::StepNotFinite => "the step is zero, or the span from start to end is shorter than eight steps",
            Refusal::MaxStepsExceeded => "a further step is due, but max_steps are made; the run has ended, its samples stay",
            Refusal::NoDenseOutput => "fewer than two samples, so there is nothing to interpolate between",
            Refusal::InterpOutOfBounds => "a time lies outside the samples; nothing was written",
            Refusal::Setting => "a setting is over its limit: passes go up to 100, max_steps to 1,000,000",
            Refusal::SampleRoom => "the samples due now do not all fit in the buffer, or it begins at a later one; the run has ended, this call wrote none",
            Refusal::NoQuestion => "no question is open: the run has ended, or its memory is not that of a run",
            Refusal::NotThatQuestion => "the answer's number is not that of the open question; the run waits as before",
            Refusal::Shape => "the samples are not in tens, or the output has too few numbers for its times",
            Refusal::StoredShape => "there are not 2,048 bytes, or a block's number or check is wrong: cut short, damaged, or no stored run",
            Refusal::StoredContent => "the blocks are whole, but hold no run: another form number, or what no run has",
            Refusal::BlankDate => "the start, the end or the step is not a finite number; look at the dates that went in",
            Refusal::NotWhole => "the start, the end or the step is no whole number, or beyond the bounds of a whole-second start",
            Refusal::TooFewSteps => "max_steps is below the steps that the run takes; a larger max_steps or a longer step would do",
            Refusal::TooLow => "a question's distance from the centre is below 1 km, or NaN; the run has ended",
            Refusal::InputLine => "a line of the input is missing, one too many, or misshapen",
            Refusal::Other(_) => "a refusal that this crate has no name for",
        }
    }
}

impl fmt::Display for Refusal {
    fn fmt(&self, f: &mut fmt::Formatter) -> fmt::Result {
        write!(f, "{} (refusal {})", self.text(), self.number())
    }
}

impl std::error::Error for Refusal {}

#[cfg(test)]
mod tests {
    use super::*;
    use std::collections::HashSet;

    #[test]
    fn numbers_go_both_ways() {
        for number in (0..=24).chain([u16::MAX]) {
            assert_eq!(Refusal::from_number(number).number(), number);
        }
        assert_eq!(Refusal::from_number(1), Refusal::StepNotFinite);
        assert_eq!(Refusal::from_number(9), Refusal::Shape);
        assert_eq!(Refusal::from_number(11), Refusal::StoredContent);
        assert_eq!(Refusal::from_number(12), Refusal::BlankDate);
        assert_eq!(Refusal::from_number(13), Refusal::NotWhole);
        assert_eq!(Refusal::from_number(14), Refusal::TooFewSteps);
        assert_eq!(Refusal::from_number(15), Refusal::TooLow);
        assert_eq!(Refusal::from_number(19), Refusal::InputLine);
        for nobodys in [0, 16, 17, 18, 20] {
            assert_eq!(Refusal::from_number(nobodys), Refusal::Other(nobodys));
        }
    }

    #[test]
    fn each_has_a_text_of_its_own() {
        // Those with a name, and one for all others.
        let texts: HashSet<_> = (0..=20).map(|n| Refusal::from_number(n).text()).collect();
        assert_eq!(texts.len(), NAMED.len() + 1);
        let error: &dyn std::error::Error = &Refusal::NotThatQuestion;
        let said = "the answer's number is not that of the open question; the run waits as before (refusal 8)";
        assert_eq!(error.to_string(), said);
    }
}
