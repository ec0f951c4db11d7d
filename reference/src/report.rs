//! What a plan prints, down to the saving, from docs/JOBS.md.

use std::fmt;

#[derive(Debug, Clone, PartialEq, Eq)]
pub struct Report {
    /// Rows and columns of cells.
    pub overlay: (usize, usize),
    /// The bytes that each sender has for each role.
    pub packages: Vec<Vec<u64>>,
    pub own_names: u64,
    pub least_naming: u64,
}

impl Report {
    /// In tenths of a per cent.
    fn saving(&self) -> u64 {
        let saved = self.own_names.saturating_sub(self.least_naming);
        (saved * 1000).checked_div(self.own_names).unwrap_or(0)
    }
}

impl fmt::Display for Report {
    fn fmt(&self, f: &mut fmt::Formatter<'_>) -> fmt::Result {
        writeln!(f, "overlay: {} x {} cells\n", self.overlay.0, self.overlay.1)?;
        writeln!(f, "packages in bytes, senders down and roles across:")?;
        write!(f, "{:5}", "")?;
        for role in 0..self.packages.len() {
            write!(f, "{role:>10}")?;
        }
        for (sender, row) in self.packages.iter().enumerate() {
            write!(f, "\n{sender:>5}")?;
            for bytes in row {
                write!(f, "{bytes:>10}")?;
            }
        }
        let saving = self.saving();
        writeln!(f, "\n\nown names:      {}", self.own_names)?;
        writeln!(f, "least naming:   {}", self.least_naming)?;
        writeln!(f, "saving:         {}.{} %", saving / 10, saving % 10)
    }
}

#[cfg(test)]
mod tests {
    use super::*;

    #[test]
    fn the_report_of_the_page() {
        let report = Report {
            overlay: (2, 2),
            packages: vec![vec![12, 24], vec![4, 8]],
            own_names: 28,
            least_naming: 20,
        };
        assert!(include_str!("../../docs/JOBS.md").contains(&format!("\n{report}\n")));
    }

    #[test]
    fn nothing_is_saved_of_nothing() {
        let report = Report { overlay: (1, 1), packages: vec![vec![4]], own_names: 0, least_naming: 0 };
        assert!(report.to_string().ends_with("saving:         0.0 %\n"));
    }
}
