//! Traces and events as text, for a failing case.

use decoder::generate::{Scenario, Step};
use decoder::Sheet;
use differential::compare::given::Given;
use differential::failure::{given, hex};

/// A lent message and its sheet, and the other words and sheet.
pub fn trace(asked: &Given, sheet: &Sheet, other: &Given, other_sheet: &Sheet) -> String {
    let sheets = [sheet, other_sheet].map(|sheet| sheet.identifiers);
    format!(
        "sheet {:?}; or {:?}\n{}",
        sheets[0],
        sheets[1],
        given(asked, other)
    )
}

/// A whole list of events with what they are given to.
pub fn scenario(scenario: &Scenario) -> String {
    let (sheet, length) = (&scenario.sheet.identifiers, scenario.length);
    let mut text = format!("sheet {sheet:?}\nlength {length}, {:?}\n", scenario.layout);
    text += &hex("buffer", &scenario.buffer);
    text += &hex("\nreport", &scenario.report);
    for (index, step) in scenario.events.iter().enumerate() {
        text += &format!("\nevent {index}: {}", event(step));
    }
    text
}

fn event(step: &Step) -> String {
    match step {
        Step::Discontinuity(settings) => format!("discontinuity, {settings:?}"),
        Step::Activity {
            level,
            group,
            reports_asked,
            settings,
        } => format!(
            "activity {level:?}, reports asked {reports_asked}, {settings:?}, {}",
            hex("group", group)
        ),
    }
}
