//! The eight criteria, each with its verdict and its figures, by the set that
//! the text has chosen. No set has a criterion of its own: sets differ in what
//! `CriteriaSet` says of them.

use crate::book::Document;
use crate::curve::Curve;
use crate::line::up;
use crate::loading::{laden_in, Laden};
use crate::refusal::Refusal;
use crate::roll;
use crate::sets::{CriteriaSet, Limit};
use crate::unit::{Unit, TENTHS};

pub const FAIL: u8 = 0;
pub const PASS: u8 = 1;
pub const NOT_JUDGED: u8 = 2;
pub const REFUSED: u8 = 3;
pub const UNUSED: u8 = 4;

pub const WEATHER_END: i128 = 500;

#[derive(Clone, Debug, PartialEq)]
pub struct Judgement {
    pub verdicts: [u8; 8],
    /// W, KG, GM, areas of 1, 2, 3, greatest y, its angle, phi0, phi1, net.
    pub figures: [i128; 11],
}

/// The judgement of a document, or refusal 7 or 8.
pub fn judge_document(document: &Document) -> Result<Judgement, Refusal> {
    judge_in(document, TENTHS)
}

/// The same with KG and what goes with it in this unit.
pub fn judge_in(document: &Document, unit: Unit) -> Result<Judgement, Refusal> {
    Ok(judgement(document, &laden_in(document, unit)?))
}

fn verdict(holds: bool) -> u8 {
    if holds {
        PASS
    } else {
        FAIL
    }
}

/// The verdict on a figure that must reach a limit, if the slot is used. A
/// figure that there is none of does not.
pub fn at_least(figure: impl Into<Option<i128>>, limit: Limit) -> u8 {
    let reaches = |limit: i128| figure.into().is_some_and(|figure| figure >= limit);
    limit.map_or(UNUSED, |limit| verdict(reaches(limit)))
}

fn judgement(document: &Document, laden: &Laden) -> Judgement {
    let set = document.condition.criteria;
    let limit = |limit: Limit| limit.map(|limit| laden.unit.of(limit));
    let curve = Curve::of(laden);
    let flooding = document.condition.weather.flooding;
    let to_30 = curve.area(0, flooding.min(300));
    let to_40 = curve.area(0, flooding.min(400));
    let from_30 = curve.area(300, flooding.min(400));
    let high = curve.greatest(set.lever_from..=flooding).map(|(_, y)| y);
    let angle = curve.greatest(0..=flooding).map_or(0, |(t, _)| t);
    let wind = Wind::on(document, laden, &curve);
    let (weather, phi1, net) = wind.weather(document, laden, &curve);
    Judgement {
        verdicts: [
            at_least(to_30, limit(set.area_to_30)),
            at_least(from_30, limit(set.area_30_to_40)),
            at_least(to_40, limit(set.area_to_40)),
            at_least(high, limit(set.greatest_lever)),
            at_least(angle, set.angle_of_greatest),
            at_least(laden.gm(), limit(set.gm)),
            wind.steady(set, document.condition.weather.deck_edge),
            weather,
        ],
        figures: [
            laden.displacement,
            laden.kg,
            laden.gm(),
            to_30,
            from_30,
            to_40,
            high.unwrap_or(0),
            angle,
            wind.phi0.unwrap_or(-1),
            phi1,
            net,
        ],
    }
}

/// The wind levers in millimetres and the steady heel under the first.
#[derive(Debug)]
pub struct Wind {
    pub steady_lever: i128,
    pub gust_lever: i128,
    pub phi0: Option<i128>,
}

/// The weather criterion's roll from start to the end of the gust's area.
#[derive(Debug, PartialEq)]
pub struct Gust {
    pub start: i128,
    pub end: i128,
    pub net: i128,
}

impl Wind {
    pub fn on(document: &Document, laden: &Laden, curve: &Curve) -> Wind {
        let weather = &document.condition.weather;
        let heeling = 5_040 * weather.wind_area * weather.arm;
        let steady_lever = up(heeling, 981 * laden.displacement);
        let steady_y = curve.of_millimetres(steady_lever);
        Wind {
            steady_lever,
            gust_lever: up(3 * steady_lever, 2),
            phi0: curve.first_at_least(steady_y, 0..=weather.flooding),
        }
    }

    fn steady(&self, set: &CriteriaSet, deck_edge: i128) -> u8 {
        let holds = |phi0: i128| {
            let clear = !set.deck_edge_counts || 10 * phi0 <= 8 * deck_edge;
            phi0 <= set.steady_heel && clear
        };
        verdict(self.phi0.is_some_and(holds))
    }

    /// Verdict, phi1 and net of criterion 8.
    fn weather(&self, document: &Document, laden: &Laden, curve: &Curve) -> (u8, i128, i128) {
        let condition = &document.condition.weather;
        let Some(phi1) = roll::angle(&document.ship, condition.block_coefficient, laden) else {
            return (NOT_JUDGED, 0, 0);
        };
        match self.gust(curve, phi1, condition.flooding) {
            Some(gust) => (verdict(gust.net >= 0), phi1, gust.net),
            None => (FAIL, 0, 0),
        }
    }

    /// None where phi0 or u is none.
    pub fn gust(&self, curve: &Curve, phi1: i128, flooding: i128) -> Option<Gust> {
        let phi0 = self.phi0?;
        let gust_y = curve.of_millimetres(self.gust_lever);
        let last = flooding.min(WEATHER_END);
        let u = curve.first_at_least(gust_y, phi0..=last)?;
        let end = curve.stays_to(gust_y, u, last);
        let exact = curve.y(phi0) == curve.of_millimetres(self.steady_lever);
        let start = if exact { phi0 } else { phi0 - 1 } - phi1;
        let net = curve.area(start, end) - 2 * gust_y * (end - start);
        Some(Gust { start, end, net })
    }
}
