//! Levers that meet a wind lever exactly and miss it by the least there is in
//! y, periods that meet 100 q² exactly and miss it by a tenth of GM, and equal
//! greatest levers at half a millimetre of KG.

use super::{beside, moored};
use crate::corpus::cases::Cases;
use crate::corpus::dice::Dice;
use crate::corpus::edges::tied;
use crate::corpus::solve::{figures, fit, lever, reachable, sine_sum};
use crate::corpus::timber::{add_either, shape, Levers};
use crate::corpus::vessel::{self, Vessel};
use crate::corpus::winds::{blow, exact, exact_at, sail, Sailing};
use crate::criteria::NOT_JUDGED;
use crate::curve::{STEP, Y_PER_MILLIMETRE};
use crate::roll::period;
use crate::unit::TENTHS;

const TRIES: usize = 60;

pub fn add(cases: &mut Cases) {
    for off in [-1, 1] {
        cases.add(format!("y at phi0 {off:+} from lw1"), move |dice| {
            exact(dice, off).0.text(dice)
        });
    }
    for off in [-100, 0, 100] {
        let name = format!("y at 160 {off:+} from lw1");
        add_either(cases, &name, move |dice| heeled(dice, off));
    }
    for (name, meeting) in [
        ("greatest y {} from lw1", &TOP),
        ("greatest y {} from lw2", &GUSTY_TOP),
        ("y at e {} from lw2", &END),
    ] {
        for off in [-1, 0, 1] {
            let name = name.replace("{}", &format!("{off:+}"));
            cases.add(name, move |dice| meeting.vessel(dice, off).text(dice));
        }
    }
    for n in [700, 800, 1_200, 2_000] {
        cases.add(
            format!("period {n} met and missed by a tenth"),
            move |dice| beside(&timed(dice, n), &[-1, 0, 1]),
        );
    }
    let name = "equal levers at stations 3 and 4, KG 40625 tenths";
    add_either(cases, name, |dice| tied(dice, 3, 4, 40_625));
}

/// A ship whose lever at 160 is a wind's, or so much beside. All levers there
/// can be divided by 100, so that 100 is the least.
fn heeled(dice: &mut Dice, off: i128) -> Vessel {
    let mut vessel = vessel::judged(dice);
    for _ in 0..TRIES {
        vessel.weather.deck_edge = 200;
        if let Some(found) = exact_at(&vessel, 160, off) {
            return found.0;
        }
        vessel = vessel::judged(dice);
    }
    vessel
}

/// Where a curve meets a wind lever: on its way up to the flooding angle, or
/// on its way down.
struct Meeting {
    levers: Levers,
    at_flooding: bool,
    /// Whether the wind lever is lw2, or lw1.
    gust: bool,
}

const TOP: Meeting = Meeting {
    levers: [0, 30, 60, 90, 120, 150, 190, 240, 300, 360, 420, 460, 480],
    at_flooding: true,
    gust: false,
};

const GUSTY_TOP: Meeting = Meeting { gust: true, ..TOP };

const END: Meeting = Meeting {
    levers: [0, 70, 140, 200, 250, 270, 260, 230, 190, 140, 90, 40, 0],
    at_flooding: false,
    gust: true,
};

/// The stations behind which a lever can be odd in y, where one sine is odd
/// and the next one even or the other way.
const ODD: [usize; 2] = [7, 9];

/// How far KG may go from the vessel's own, in tenths.
const REACH: i128 = 20_000;

impl Meeting {
    /// A ship that criterion 8 judges, whose lever there is the wind's, or so
    /// much beside it in y.
    fn vessel(&self, dice: &mut Dice, off: i128) -> Vessel {
        let mut draw = || {
            let draught = dice.between(2_600, 3_200);
            let mut vessel = moored(dice, draught);
            vessel.weather.flooding = 600;
            vessel
        };
        let mut vessel = draw();
        for _ in 0..TRIES {
            let behind = |station: usize| (1..50).map(move |past| (station, past));
            let mut angles = ODD.into_iter().flat_map(behind);
            if let Some(found) = angles.find_map(|angle| self.at(&vessel, angle, off)) {
                return found;
            }
            vessel = draw();
        }
        vessel
    }

    /// The same at an angle so many tenths past a station.
    fn at(&self, base: &Vessel, (station, past): (usize, i128), off: i128) -> Option<Vessel> {
        let t = STEP * station as i128 + past;
        let [before, behind] = [station, station + 1].map(|at| self.levers[at]);
        let level = before + (behind - before) * past / STEP;
        let (weights, own) = (lever(t), base.kg_in_tenths());
        reachable(off, sine_sum(&weights), own - REACH, own + REACH).find_map(|kg| {
            let mut vessel = base.clone();
            vessel.raise_to(kg);
            shape(&mut vessel, &self.levers);
            if self.at_flooding {
                vessel.weather.flooding = t;
            }
            let figure = level * Y_PER_MILLIMETRE + off;
            let fits = fit(vessel.laden(), &weights, kg, figure, station);
            let blows = blow(&mut vessel, if self.gust { 2 * level / 3 } else { level });
            (fits && blows && self.is_met(&vessel, level)).then_some(vessel)
        })
    }

    /// Whether criterion 8 is judged, the level is the wind's and, with the
    /// flooding angle there, no lever before it is as high.
    fn is_met(&self, vessel: &Vessel, level: i128) -> bool {
        let judged = figures(vessel).is_some_and(|judged| judged.verdicts[7] != NOT_JUDGED);
        let flooding = vessel.weather.flooding;
        sail(vessel).is_some_and(|Sailing { curve, wind, .. }| {
            let [lw1, lw2] = [wind.steady_lever, wind.gust_lever];
            let top = curve.greatest(0..=flooding).map(|(t, _)| t) == Some(flooding);
            judged && level == if self.gust { lw2 } else { lw1 } && (top || !self.at_flooding)
        })
    }
}

/// A ship with q = 5 n and a GM of 2,500 tenths: n² GM = 100 q².
fn timed(dice: &mut Dice, n: i128) -> Vessel {
    let mut vessel = moored(dice, 5 * n * 49 / 100);
    let draught = vessel.rows[0].draught;
    for length in 24_000..400_000 {
        vessel.ship.length = length;
        if q(&vessel, draught) == 5 * n {
            break;
        }
    }
    vessel.set_gm(2_500);
    vessel
}

/// What 100 q² is the square of, at a GM of 100.
fn q(vessel: &Vessel, draught: i128) -> i128 {
    period(&vessel.ship, draught, 100, TENTHS)
}
