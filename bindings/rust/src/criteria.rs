//! The rows of a CSI, and the criteria of its detection points.
use crate::ffi::first;
use crate::{BasicService, Cause, DetectionPoint, Error, IsdnAddress, ffi};
use std::fmt;

/// A row of a CSI: the service that is invoked at a detection point.
#[derive(Clone, Copy, PartialEq, Eq)]
#[repr(transparent)]
pub struct Row(pub(crate) ffi::Row);

impl Row {
    /// A row whose default call handling is 0, continue. The detection point is any that was received: one that is not
    /// of the CSI is ignored, and counts. Service keys are at most 2147483647, which is looked at when it is submitted.
    pub fn new(dp: impl Into<u8>, key: u32, scf: IsdnAddress) -> Row {
        Row(ffi::Row {
            dp: dp.into(),
            key,
            scf: scf.0,
            handling: 0,
        })
    }

    /// The row with this default call handling as it was received: 0 is continue, 1 is release, 2 to 31 are continue,
    /// and those above are release.
    #[must_use]
    pub fn with_handling(mut self, handling: u32) -> Row {
        self.0.handling = handling;
        self
    }

    /// The number of the detection point.
    pub fn dp(&self) -> u8 {
        self.0.dp
    }

    /// The service key.
    pub fn key(&self) -> u32 {
        self.0.key
    }

    /// The address of the gsmSCF.
    pub fn scf(&self) -> IsdnAddress {
        IsdnAddress(self.0.scf)
    }

    /// The default call handling. That of a row that a session gives is what it comes to: 0, continue, or 1, release.
    pub fn handling(&self) -> u32 {
        self.0.handling
    }
}

impl fmt::Debug for Row {
    fn fmt(&self, out: &mut fmt::Formatter<'_>) -> fmt::Result {
        self.0.fmt(out)
    }
}

/// Whether a criterion of numbers is met by a destination that is listed, or by one that is not.
#[derive(Clone, Copy, Debug, PartialEq, Eq, Hash)]
pub enum MatchType {
    /// Met by a destination that is not listed.
    Inhibiting,
    /// Met by a destination that is listed.
    Enabling,
}

/// A destination number criterion: numbers that the destination begins with, and lengths that it has.
#[derive(Clone, Copy, PartialEq, Eq)]
pub struct NumberCriterion(ffi::NumberCriterion);

impl NumberCriterion {
    /// A criterion of at most 10 numbers and at most 3 lengths. That it has one of them, and that each length is 1 to
    /// 15, is looked at when it is submitted.
    ///
    /// # Errors
    /// [`Error::Malformed`] if there are more.
    pub fn new(
        match_type: MatchType,
        numbers: &[IsdnAddress],
        lengths: &[u8],
    ) -> Result<NumberCriterion, Error> {
        let (number_count, numbers) = filled(numbers, |number| number.0)?;
        let (length_count, lengths) = filled(lengths, |length| length)?;
        Ok(NumberCriterion(ffi::NumberCriterion {
            is_enabling: match_type == MatchType::Enabling,
            number_count,
            length_count,
            lengths,
            numbers,
        }))
    }

    /// Whether listed destinations meet it.
    pub fn match_type(&self) -> MatchType {
        if self.0.is_enabling {
            MatchType::Enabling
        } else {
            MatchType::Inhibiting
        }
    }

    /// The listed numbers, in their order.
    pub fn numbers(&self) -> impl Iterator<Item = IsdnAddress> + '_ {
        let numbers = first(&self.0.numbers, self.0.number_count);
        numbers.iter().copied().map(IsdnAddress)
    }

    /// The listed lengths, in their order.
    pub fn lengths(&self) -> &[u8] {
        first(&self.0.lengths, self.0.length_count)
    }
}

impl fmt::Debug for NumberCriterion {
    fn fmt(&self, out: &mut fmt::Formatter<'_>) -> fmt::Result {
        out.debug_struct("NumberCriterion")
            .field("match_type", &self.match_type())
            .field("numbers", &self.numbers().collect::<Vec<_>>())
            .field("lengths", &self.lengths())
            .finish()
    }
}

/// The call type criterion.
#[derive(Clone, Copy, Debug, PartialEq, Eq, Hash)]
pub enum CallType {
    /// Met by a forwarded call.
    Forwarded,
    /// Met by a call that is not forwarded.
    NotForwarded,
}

/// The criteria of a detection point of the O-CSI. An event meets them if it meets each one that is there.
#[derive(Clone, Copy, PartialEq, Eq)]
#[repr(transparent)]
pub struct OCriteria(ffi::Criteria);

impl OCriteria {
    /// With a destination number criterion.
    #[must_use]
    pub fn with_number(mut self, number: NumberCriterion) -> OCriteria {
        self.0.has_number = true;
        self.0.number = number.0;
        self
    }

    /// With a call type criterion.
    #[must_use]
    pub fn with_call_type(mut self, call_type: CallType) -> OCriteria {
        self.0.has_call_type = true;
        self.0.is_forwarded = call_type == CallType::Forwarded;
        self
    }

    /// The destination number criterion.
    pub fn number(&self) -> Option<NumberCriterion> {
        self.0.has_number.then_some(NumberCriterion(self.0.number))
    }

    /// The call type criterion.
    pub fn call_type(&self) -> Option<CallType> {
        let call_type = if self.0.is_forwarded {
            CallType::Forwarded
        } else {
            CallType::NotForwarded
        };
        self.0.has_call_type.then_some(call_type)
    }
}

/// The criteria of a detection point of the VT-CSI. An event meets them if it meets each one that is there.
#[derive(Clone, Copy, PartialEq, Eq)]
#[repr(transparent)]
pub struct TCriteria(ffi::Criteria);

// What both have: the first detection point, at which no call is released yet, and the criteria of one's own before the
// basic services and behind them.
macro_rules! criteria {
    ($name:ident, $first:literal, [$($before:ident)?], [$($behind:ident)?]) => {
        impl $name {
            /// Criteria of a detection point, any that was received, with none in them.
            pub fn new(dp: impl Into<u8>) -> $name {
                $name(ffi::Criteria { dp: dp.into(), ..Default::default() })
            }

            /// With a basic service criterion of at most 5 codes; none are no criterion.
            ///
            /// # Errors
            /// [`Error::Malformed`] if there are more.
            pub fn with_basic(mut self, services: &[BasicService]) -> Result<$name, Error> {
                let (count, services) = filled(services, BasicService::raw)?;
                self.0.basic = ffi::BasicServices { count, services };
                Ok(self)
            }

            /// With a cause criterion of at most 5 causes; none are no criterion. Criteria with causes of DP
            #[doc = concat!($first, " are refused when they are submitted.")]
            ///
            /// # Errors
            /// [`Error::Malformed`] if there are more.
            pub fn with_causes(mut self, causes: &[Cause]) -> Result<$name, Error> {
                let (count, causes) = filled(causes, Cause::value)?;
                self.0.causes = ffi::Causes { count, causes };
                Ok(self)
            }

            /// The number of the detection point.
            pub fn dp(&self) -> u8 {
                self.0.dp
            }

            /// The codes of the basic service criterion; none if there is none.
            pub fn basic(&self) -> impl Iterator<Item = BasicService> + '_ {
                let services = first(&self.0.basic.services, self.0.basic.count);
                services.iter().copied().map(BasicService::of_raw)
            }

            /// The causes of the cause criterion; none if there is none.
            pub fn causes(&self) -> impl Iterator<Item = Cause> + '_ {
                let causes = first(&self.0.causes.causes, self.0.causes.count);
                causes.iter().copied().map(Cause::of_octet)
            }
        }

        impl fmt::Debug for $name {
            fn fmt(&self, out: &mut fmt::Formatter<'_>) -> fmt::Result {
                out.debug_struct(stringify!($name))
                    .field("dp", &self.dp())
                    $(.field(stringify!($before), &self.$before()))?
                    .field("basic", &self.basic().collect::<Vec<_>>())
                    $(.field(stringify!($behind), &self.$behind()))?
                    .field("causes", &self.causes().collect::<Vec<_>>())
                    .finish()
            }
        }
    };
}

criteria! { OCriteria, 2, [number], [call_type] }
criteria! { TCriteria, 12, [], [] }

/// The criteria that are stored for a detection point: those of the O-CSI at 2 and 4, of the VT-CSI at the others.
#[derive(Clone, Copy, Debug, PartialEq, Eq)]
pub enum Criteria {
    /// At DP 2 and 4.
    O(OCriteria),
    /// At DP 12, 13 and 14.
    T(TCriteria),
}

impl Criteria {
    /// What the library gave for the detection point. Of the VT-CSI it has neither a number nor a call type.
    pub(crate) fn of_raw(raw: ffi::Criteria, dp: DetectionPoint) -> Criteria {
        match dp {
            DetectionPoint::CollectedInfo | DetectionPoint::RouteSelectFailure => {
                Criteria::O(OCriteria(raw))
            }
            DetectionPoint::TerminatingAttempt
            | DetectionPoint::Busy
            | DetectionPoint::NoAnswer => Criteria::T(TCriteria(raw)),
        }
    }
}

/// The count of items, and an array of the library with them; more than it has room for are refused.
fn filled<Item: Copy, Raw: Copy + Default, const ROOM: usize>(
    items: &[Item],
    raw: impl Fn(Item) -> Raw,
) -> Result<(u8, [Raw; ROOM]), Error> {
    let mut array = [Raw::default(); ROOM];
    let places = array.get_mut(..items.len()).ok_or(Error::Malformed)?;
    for (place, item) in places.iter_mut().zip(items) {
        *place = raw(*item);
    }
    Ok((items.len() as u8, array))
}
