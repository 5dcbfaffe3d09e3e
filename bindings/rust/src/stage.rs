use crate::Refusal;

/// When the expression is folded. At Const and at Override `f32` refuses an AbstractFloat, and `f16` a number of any
/// other kind, that is outside its range or NaN (21), and the same call gives one result at both: the same answer and
/// the same bytes. At Exec they take it, and may give an infinity or NaN. A literal that is converted without them must
/// fit at every stage (9 or 10).
#[derive(Clone, Copy, Debug, PartialEq, Eq, Hash)]
#[repr(u8)]
pub enum Stage {
    /// In a constant expression. `f32` and `f16` check their range.
    Const = 0,
    /// When the pipeline is made. They check it as at Const.
    Override = 1,
    /// While the shader runs. They do not check it.
    Exec = 2,
}

impl Stage {
    /// Every stage, in the order of the numbers.
    pub const ALL: [Stage; 3] = [Stage::Const, Stage::Override, Stage::Exec];

    /// The stage's number.
    pub fn number(self) -> u8 {
        self as u8
    }
}

impl TryFrom<u8> for Stage {
    type Error = Refusal;

    /// The stage of a number; from 3 on there is none.
    fn try_from(number: u8) -> Result<Stage, Refusal> {
        Stage::ALL.get(usize::from(number)).copied().ok_or(Refusal::NoStage)
    }
}
