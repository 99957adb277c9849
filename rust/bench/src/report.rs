//! Prints what was measured, line by line as it comes, and holds it against the bars.

use crate::race::Times;

/// The ratios of one group, to be taken together at its end.
pub struct Group {
    ratios: Vec<f64>,
}

impl Group {
    /// Starts a group with its heading.
    pub fn new(title: &str) -> Group {
        println!();
        println!("{title:<44}{:>10}{:>10}{:>8}", "library", "plain", "ratio");
        Group { ratios: Vec::new() }
    }

    /// Prints one measurement.
    pub fn line(&mut self, name: &str, times: Times) {
        self.print(name, times, "");
    }

    /// Prints one measurement and whether it keeps within its own bar.
    pub fn line_with_bar(&mut self, name: &str, times: Times, bar: f64) {
        self.print(name, times, &mark(times.ratio(), bar));
    }

    fn print(&mut self, name: &str, times: Times, mark: &str) {
        let Times { ours, plain } = times;
        println!("  {name:<42}{ours:>10.2}{plain:>10.2}{:>8.2}  {mark}", times.ratio());
        self.ratios.push(times.ratio());
    }

    /// Prints the geometric mean of the group's ratios.
    pub fn mean(&self) {
        println!("  {:<62}{:>8.2}", "geometric mean", self.geometric_mean());
    }

    /// Prints the geometric mean and the worst ratio, and whether they keep within their bars.
    pub fn mean_and_worst(&self, mean_bar: f64, worst_bar: f64) {
        figure("geometric mean", self.geometric_mean(), mean_bar);
        figure("worst", self.ratios.iter().copied().fold(0.0, f64::max), worst_bar);
    }

    fn geometric_mean(&self) -> f64 {
        let logarithms: f64 = self.ratios.iter().map(|ratio| ratio.ln()).sum();
        (logarithms / self.ratios.len() as f64).exp()
    }
}

/// So many rows, up to 4,096, in words.
pub fn counted(rows: usize) -> String {
    match (rows, rows / 1_000) {
        (1, _) => String::from("1 row"),
        (_, 0) => format!("{rows} rows"),
        (_, thousands) => format!("{thousands},{:03} rows", rows % 1_000),
    }
}

/// Prints a number that stands for itself, with its bar.
pub fn figure(name: &str, value: f64, bar: f64) {
    println!("  {name:<62}{value:>8.2}  {}", mark(value, bar));
}

fn mark(value: f64, bar: f64) -> String {
    let verdict = if value <= bar { "PASS" } else { "OVER" };
    format!("{verdict} (bar {bar:.1})")
}
