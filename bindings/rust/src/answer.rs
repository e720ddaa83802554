//! Answers: whether a service is invoked.
use crate::{DetectionPoint, Error, IsdnAddress, ffi};

/// What an event was decided to be, and over which data.
#[derive(Clone, Copy, Debug, PartialEq, Eq)]
pub struct Answer {
    /// How many updates the data have by which it was decided.
    pub front: u64,
    /// The decision.
    pub outcome: Outcome,
}

/// A decision.
#[derive(Clone, Copy, Debug, PartialEq, Eq)]
pub enum Outcome {
    /// A service is invoked: that of the row that is stored for the detection point.
    Trigger {
        /// The detection point of the row, which is that of the event.
        dp: DetectionPoint,
        /// The service key, 0 to 2147483647.
        key: u32,
        /// The address of the gsmSCF.
        scf: IsdnAddress,
        /// What becomes of the call if the dialogue with the gsmSCF fails.
        on_failure: OnFailure,
    },
    /// No service is invoked.
    NoTrigger(Reason),
}

impl Outcome {
    /// Whether a service is invoked.
    pub fn is_trigger(&self) -> bool {
        matches!(self, Outcome::Trigger { .. })
    }
}

/// The default call handling of a row.
#[derive(Clone, Copy, Debug, PartialEq, Eq, Hash)]
pub enum OnFailure {
    /// The call goes on without the service.
    Continue,
    /// The call is released.
    Release,
}

/// Why no service is invoked: the first one in this order that applies.
#[derive(Clone, Copy, Debug, PartialEq, Eq, Hash)]
#[repr(u8)]
pub enum Reason {
    /// There is no record of the IMSI. It does not say that the subscriber has no service.
    Unknown = 1,
    /// The CSI is not stored.
    NoCsi = 2,
    /// The CSI has no row of the detection point.
    NotArmed = 3,
    /// The call is an emergency call.
    Emergency = 4,
    /// The criteria are not met.
    Criteria = 5,
}

impl Reason {
    /// The number of the reason, as in `camel.h`.
    pub const fn code(self) -> u8 {
        self as u8
    }

    #[inline]
    const fn of_code(code: u8) -> Option<Reason> {
        match code {
            1 => Some(Reason::Unknown),
            2 => Some(Reason::NoCsi),
            3 => Some(Reason::NotArmed),
            4 => Some(Reason::Emergency),
            5 => Some(Reason::Criteria),
            _ => None,
        }
    }
}

/// How many events a session has decided at each detection point with each outcome, each count modulo 2^64.
#[derive(Clone, Copy, Debug, PartialEq, Eq)]
pub struct Decisions(pub(crate) ffi::Decisions);

impl Decisions {
    /// How many triggered at a detection point: a service was invoked.
    pub fn triggered(&self, dp: DetectionPoint) -> u64 {
        self.by_reason(dp)[0]
    }

    /// How many did not trigger at a detection point, for this reason.
    pub fn not_triggered(&self, dp: DetectionPoint, reason: Reason) -> u64 {
        self.by_reason(dp)[usize::from(reason.code())]
    }

    /// How many there are at a detection point, modulo 2^64.
    pub fn at(&self, dp: DetectionPoint) -> u64 {
        sum(self.by_reason(dp))
    }

    /// How many there are, modulo 2^64.
    pub fn total(&self) -> u64 {
        sum(self.0.by.as_flattened())
    }

    fn by_reason(&self, dp: DetectionPoint) -> &[u64] {
        &self.0.by[usize::from(dp.number())]
    }
}

/// The sum of counts, modulo 2^64.
fn sum(counts: &[u64]) -> u64 {
    counts.iter().fold(0, |sum, count| sum.wrapping_add(*count))
}

impl Answer {
    #[inline]
    pub(crate) fn of_raw(answer: ffi::Answer) -> Result<Answer, Error> {
        let unknown = |number: u8| Error::Unknown(number.into());
        let outcome = if answer.is_trigger {
            Outcome::Trigger {
                dp: DetectionPoint::of_number(answer.dp).ok_or(unknown(answer.dp))?,
                key: answer.key,
                scf: IsdnAddress(answer.scf),
                on_failure: if answer.is_release {
                    OnFailure::Release
                } else {
                    OnFailure::Continue
                },
            }
        } else {
            Outcome::NoTrigger(Reason::of_code(answer.reason).ok_or(unknown(answer.reason))?)
        };
        Ok(Answer {
            front: answer.front,
            outcome,
        })
    }
}

#[cfg(test)]
mod tests {
    use super::*;

    #[test]
    fn answers_of_unknown_numbers_are_errors() {
        for reason in 0..=255 {
            let answer = ffi::Answer {
                reason,
                ..Default::default()
            };
            let known = Answer::of_raw(answer).map(|answer| match answer.outcome {
                Outcome::NoTrigger(why) => why.code(),
                Outcome::Trigger { .. } => 0,
            });
            let wanted = if (1..=5).contains(&reason) {
                Ok(reason)
            } else {
                Err(Error::Unknown(reason.into()))
            };
            assert_eq!(known, wanted);
        }
        let trigger = ffi::Answer {
            is_trigger: true,
            dp: 3,
            ..Default::default()
        };
        assert_eq!(Answer::of_raw(trigger), Err(Error::Unknown(3)));
    }
}
