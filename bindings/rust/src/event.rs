//! Call events: what a call is at a trigger detection point.
use crate::{Address, Error, Imsi, ffi};
use std::fmt;

/// The trigger detection points that are decided. [`Csis`](crate::Csis) says which CSI has rows and criteria of each.
#[derive(Clone, Copy, Debug, PartialEq, Eq, Hash)]
#[repr(u8)]
pub enum DetectionPoint {
    /// DP 2, collectedInfo.
    CollectedInfo = 2,
    /// DP 4, routeSelectFailure.
    RouteSelectFailure = 4,
    /// DP 12, termAttemptAuthorized.
    TerminatingAttempt = 12,
    /// DP 13, tBusy.
    Busy = 13,
    /// DP 14, tNoAnswer.
    NoAnswer = 14,
}

impl DetectionPoint {
    /// The number of the detection point.
    pub const fn number(self) -> u8 {
        self as u8
    }

    /// The detection point of a number; None if it is not one of the five.
    #[inline]
    pub const fn of_number(number: u8) -> Option<DetectionPoint> {
        match number {
            2 => Some(DetectionPoint::CollectedInfo),
            4 => Some(DetectionPoint::RouteSelectFailure),
            12 => Some(DetectionPoint::TerminatingAttempt),
            13 => Some(DetectionPoint::Busy),
            14 => Some(DetectionPoint::NoAnswer),
            _ => None,
        }
    }
}

impl From<DetectionPoint> for u8 {
    fn from(dp: DetectionPoint) -> u8 {
        dp.number()
    }
}

/// A basic service: the first octet of its code in TS 29.002.
#[derive(Clone, Copy, Debug, PartialEq, Eq, Hash)]
pub enum BasicService {
    /// A teleservice, as telephony (0x11) or emergency calls (0x12).
    Tele(u8),
    /// A bearer service.
    Bearer(u8),
}

impl BasicService {
    pub(crate) fn of_raw(service: ffi::BasicService) -> BasicService {
        if service.is_bearer {
            BasicService::Bearer(service.code)
        } else {
            BasicService::Tele(service.code)
        }
    }

    pub(crate) fn raw(self) -> ffi::BasicService {
        let (is_bearer, code) = match self {
            BasicService::Tele(code) => (false, code),
            BasicService::Bearer(code) => (true, code),
        };
        ffi::BasicService { is_bearer, code }
    }
}

/// A cause value of Q.850, 0 to 127, without the extension bit.
#[derive(Clone, Copy, Debug, PartialEq, Eq, Hash)]
pub struct Cause(u8);

impl Cause {
    /// The cause of a value.
    ///
    /// # Errors
    /// [`Error::Malformed`] above 127.
    pub const fn new(value: u8) -> Result<Cause, Error> {
        if value <= 127 {
            Ok(Cause(value))
        } else {
            Err(Error::Malformed)
        }
    }

    /// The cause of an octet as it is received; bit 8 is the extension bit, and is left out.
    pub const fn of_octet(octet: u8) -> Cause {
        Cause(octet & 0x7f)
    }

    /// Its value, 0 to 127.
    pub const fn value(self) -> u8 {
        self.0
    }
}

/// A call event, made by the function of its detection point. The IMSI is that of the served subscriber: the calling or
/// forwarding one at DP 2 and 4, the called one at DP 12, 13 and 14.
#[derive(Clone, Copy)]
pub struct Event(pub(crate) ffi::Event);

impl Event {
    fn at(dp: DetectionPoint, imsi: Imsi, basic: BasicService) -> Event {
        Event(ffi::Event {
            imsi: imsi.raw(),
            basic: basic.raw(),
            dp: dp.number(),
            ..Default::default()
        })
    }

    fn with_destination(mut self, destination: Address) -> Event {
        self.0.destination = destination.0;
        self
    }

    fn with_cause(mut self, cause: Cause) -> Event {
        self.0.cause = cause.value();
        self
    }

    /// DP 2: the destination of a call is known.
    pub fn collected_info(imsi: Imsi, basic: BasicService, destination: Address) -> Event {
        Event::at(DetectionPoint::CollectedInfo, imsi, basic).with_destination(destination)
    }

    /// DP 4: the call could not be routed, for this cause.
    pub fn route_select_failure(
        imsi: Imsi,
        basic: BasicService,
        destination: Address,
        cause: Cause,
    ) -> Event {
        Event::at(DetectionPoint::RouteSelectFailure, imsi, basic)
            .with_destination(destination)
            .with_cause(cause)
    }

    /// DP 12: a call for the subscriber has come.
    pub fn terminating_attempt(imsi: Imsi, basic: BasicService) -> Event {
        Event::at(DetectionPoint::TerminatingAttempt, imsi, basic)
    }

    /// DP 13: the subscriber is busy.
    pub fn busy(imsi: Imsi, basic: BasicService, cause: Cause) -> Event {
        Event::at(DetectionPoint::Busy, imsi, basic).with_cause(cause)
    }

    /// DP 14: the subscriber does not answer.
    pub fn no_answer(imsi: Imsi, basic: BasicService, cause: Cause) -> Event {
        Event::at(DetectionPoint::NoAnswer, imsi, basic).with_cause(cause)
    }

    /// The same event of a forwarded call. It is read at DP 2 and 4, and changes nothing at the others.
    #[must_use]
    pub fn forwarded(mut self) -> Event {
        self.0.is_forwarded = true;
        self
    }

    /// The number of its detection point.
    pub fn dp(&self) -> u8 {
        self.0.dp
    }
}

impl fmt::Debug for Event {
    fn fmt(&self, out: &mut fmt::Formatter<'_>) -> fmt::Result {
        let mut fields = out.debug_struct("Event");
        fields.field("dp", &self.0.dp);
        if let Ok(imsi) = Imsi::of_raw(self.0.imsi) {
            fields.field("imsi", &imsi);
        }
        fields
            .field("basic", &BasicService::of_raw(self.0.basic))
            .field("destination", &Address(self.0.destination))
            .field("is_forwarded", &self.0.is_forwarded)
            .field("cause", &self.0.cause)
            .finish()
    }
}
