//! The tables that are printed, each line with its end.

use crate::measure::Measurement;

/// The costs of files, and how many times that of the proved judge the simple judge's is.
pub fn costs<'a>(files: impl Iterator<Item = &'a Measurement>) -> String {
    let titles = format!(
        "{:<20}{:>14}{:>15}{:>14}{:>15}{:>17}\n",
        "case", "simple, file", "simple, event", "proved, file", "proved, event", "simple / proved"
    );
    titles + &files.map(cost).collect::<String>()
}

fn cost(file: &Measurement) -> String {
    let (simple, proved) = (file.simple(), file.proved());
    let events = f64::from(file.events);
    format!(
        "{:<20}{simple:>14.0}{:>15.1}{proved:>14.0}{:>15.1}{:>17.2}\n",
        file.case,
        simple / events,
        proved / events,
        simple / proved
    )
}

/// The costs of the files of one case, each divided by that of the first.
pub fn growth(files: &[Measurement]) -> String {
    let case = files.first().map_or("", |first| first.case);
    let events = files.iter().map(|file| format!("{:>9}", file.events));
    format!(
        "{case:<20}{}\n  {:<18}{}\n  {:<18}{}\n",
        events.collect::<String>(),
        "simple",
        ratios(files, Measurement::simple),
        "proved",
        ratios(files, Measurement::proved)
    )
}

fn ratios(files: &[Measurement], cost: fn(&Measurement) -> f64) -> String {
    let first = files.first().map_or(f64::NAN, cost);
    let ratios = files.iter().map(|file| cost(file) / first);
    ratios.map(|ratio| format!("{ratio:>9.2}")).collect()
}
