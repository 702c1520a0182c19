//! Criteria 5 and 8 with each value exact or rounded, over the same
//! straight-line curve and with the limits of the same set of criteria. A set
//! that leaves slot 5 unused leaves it so with exact values too.

use super::fraction::Fraction;
use super::hull::Hull;
use super::levers::Levers;
use super::roll::{self, Held};
use super::rounding::{Kept, Rounding};
use crate::book::Document;
use crate::criteria::{at_least, FAIL, NOT_JUDGED, PASS, WEATHER_END};
use crate::curve::Y_PER_MILLIMETRE;
use crate::sets::CriteriaSet;

pub struct Verdicts {
    set: &'static CriteriaSet,
    /// The angle of criterion 5.
    pub peak: i128,
    pub weather: Weather,
}

pub enum Weather {
    NotJudged,
    /// phi0 or u is none.
    NoAngle,
    Judged(Box<Gust>),
}

/// What decides criterion 8, each held between two fractions.
pub struct Gust {
    pub phi1: Held,
    pub start: Held,
    pub end: Fraction,
    pub net: Held,
}

impl Verdicts {
    /// None where the mass is off the rows.
    pub fn of(document: &Document, kept: Kept) -> Option<Verdicts> {
        let hull = Hull::of(document, kept)?;
        Some(Verdicts::with(document, &hull, &Levers::of(&hull), kept))
    }

    /// With the wind and the roll of this hull, and these levers.
    pub fn with(document: &Document, hull: &Hull, levers: &Levers, kept: Kept) -> Verdicts {
        Verdicts {
            set: document.condition.criteria,
            peak: levers.peak(document.condition.weather.flooding),
            weather: weather(document, hull, levers, kept),
        }
    }

    pub fn fifth(&self) -> u8 {
        at_least(self.peak, self.set.angle_of_greatest)
    }

    /// None where the two ends of the net do not agree.
    pub fn eighth(&self) -> Option<u8> {
        match &self.weather {
            Weather::NotJudged => Some(NOT_JUDGED),
            Weather::NoAngle => Some(FAIL),
            Weather::Judged(gust) if !gust.net.0.is_negative() => Some(PASS),
            Weather::Judged(gust) if gust.net.1.is_negative() => Some(FAIL),
            Weather::Judged(_) => None,
        }
    }

    /// The net rounded down, or 0 where there is none.
    pub fn figure(&self) -> i128 {
        match &self.weather {
            Weather::Judged(gust) => gust.net.1.floor(),
            _ => 0,
        }
    }
}

fn weather(document: &Document, hull: &Hull, levers: &Levers, kept: Kept) -> Weather {
    match roll::angle(document, hull, kept) {
        None => Weather::NotJudged,
        Some(phi1) => match gust(document, hull, levers, kept, phi1) {
            None => Weather::NoAngle,
            Some(gust) => Weather::Judged(Box::new(gust)),
        },
    }
}

/// The exact angles are where the straight pieces meet lw1 and lw2. All of
/// the corners of the curve are at whole tenths, so document 01's own angles
/// are these, rounded down.
fn gust(document: &Document, hull: &Hull, levers: &Levers, kept: Kept, phi1: Held) -> Option<Gust> {
    let flooding = document.condition.weather.flooding;
    let last = flooding.min(WEATHER_END);
    let steady = hull.lw1.times(Y_PER_MILLIMETRE);
    let gusting = hull.lw2.times(Y_PER_MILLIMETRE);
    let heel = levers.first_at_least(&steady, flooding)?;
    let heel = kept.down(Rounding::Start, heel);
    let u = levers.first_at_least(&gusting, last)?;
    let end = levers.stays_to(&gusting, &u, last);
    let end = kept.down(Rounding::End, end);
    let start = Held(&heel - &phi1.1, &heel - &phi1.0);
    let net = |start: &Fraction| &levers.area(start, &end) - &(&gusting * &(&end - start)).times(2);
    let net = Held(net(&start.0), net(&start.1));
    let steepest = (&levers.greatest_size() + &gusting).times(2);
    let slack = &steepest * &(&start.1 - &start.0);
    Some(Gust {
        phi1,
        net: widened(net, &slack),
        start,
        end,
    })
}

/// The net between two starts, which it has at both ends of a way on which it
/// changes by no more than the slack.
fn widened(net: Held, slack: &Fraction) -> Held {
    if slack == &Fraction::whole(0) {
        return net;
    }
    let (least, most) = if net.0 < net.1 {
        (net.0, net.1)
    } else {
        (net.1, net.0)
    };
    Held(&least - slack, &most + slack)
}
