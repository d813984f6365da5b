//! Rows of ratios in groups: those of one run, and how far each row goes over several programs.
use crate::machine;
use crate::times::Times;

/// What the proved code may take, as a multiple of plain Rust's time.
const TARGET: f64 = 1.2;

/// What a program has had: the best times of the proved code and of what that is held against, and the worst ratio of
/// the two at one place of the stack.
struct Best {
    program: String,
    proved: f64,
    other: f64,
    worst: f64,
}

impl Best {
    fn ratio(&self) -> f64 {
        self.proved / self.other
    }
}

struct Row {
    group: String,
    name: String,
    /// One of each program, in the order of the ratios.
    best: Vec<Best>,
}

impl Row {
    fn smallest(&self) -> &Best {
        &self.best[0]
    }

    fn largest(&self) -> &Best {
        &self.best[self.best.len() - 1]
    }

    fn worst(&self) -> &Best {
        self.best.iter().max_by(|a, b| a.worst.total_cmp(&b.worst)).expect("no program")
    }

    /// One more run of a program: each side has its better time of the runs, but the worst stays the worst.
    fn include(&mut self, run: Best) {
        match self.best.iter_mut().find(|best| best.program == run.program) {
            Some(best) => {
                best.proved = best.proved.min(run.proved);
                best.other = best.other.min(run.other);
                best.worst = best.worst.max(run.worst);
            }
            None => self.best.push(run),
        }
        self.best.sort_by(|a, b| a.ratio().total_cmp(&b.ratio()));
    }
}

#[derive(Default)]
pub struct Rows(Vec<Row>);

impl Rows {
    /// A row of this run.
    pub fn add(&mut self, group: &str, name: &str, t: &Times) {
        let run = Best { program: String::new(), proved: t.proved(), other: t.other(), worst: t.worst() };
        self.row(group, name).include(run);
    }

    /// The row with this name, which is new or not.
    fn row(&mut self, group: &str, name: &str) -> &mut Row {
        let place = self.0.iter().position(|row| row.group == group && row.name == name).unwrap_or_else(|| {
            self.0.push(Row { group: group.to_string(), name: name.to_string(), best: Vec::new() });
            self.0.len() - 1
        });
        &mut self.0[place]
    }

    /// Writes the rows of this run to a file, a line for each: group, name, the two times and the worst, with
    /// tabs between.
    pub fn write(&self, file: &str) {
        let line = |row: &Row| {
            let Best { proved, other, worst, .. } = row.largest();
            format!("{}\t{}\t{proved}\t{other}\t{worst}\n", row.group, row.name)
        };
        std::fs::write(file, self.0.iter().map(line).collect::<String>()).expect("no file for the rows");
    }

    /// Adds the rows that a run of a program has written.
    fn read(&mut self, program: &str, file: &str) {
        for line in std::fs::read_to_string(file).expect("no file of rows").lines() {
            let [group, name, proved, other, worst] = line.split('\t').collect::<Vec<_>>()[..] else {
                panic!("no row: {line}")
            };
            let [proved, other, worst] = [proved, other, worst].map(|number| number.parse().expect("no number"));
            self.row(group, name).include(Best { program: program.to_string(), proved, other, worst });
        }
    }

    /// The rows of each group, in the order in which the groups came.
    fn groups(&self) -> Vec<(&str, Vec<&Row>)> {
        let mut groups: Vec<(&str, Vec<&Row>)> = Vec::new();
        for row in &self.0 {
            match groups.iter_mut().find(|(group, _)| *group == row.group) {
                Some((_, rows)) => rows.push(row),
                None => groups.push((&row.group, vec![row])),
            }
        }
        groups
    }

    /// Prints every row, over all programs.
    fn print(&self) {
        println!(
            "{:<36} {:>8} {:>8} {:>8}  {:<14} the worst in",
            "ratio", "smallest", "largest", "worst", "the largest in"
        );
        for (group, rows) in self.groups() {
            println!("\n{group}");
            for row in rows {
                let (smallest, largest, worst) = (row.smallest(), row.largest(), row.worst());
                println!(
                    "  {:<34} {:>8.2} {:>8.2} {:>8.2}  {:<14} {}",
                    row.name,
                    smallest.ratio(),
                    largest.ratio(),
                    worst.worst,
                    largest.program,
                    worst.program
                );
            }
        }
    }

    /// Prints the largest ratio and the largest worst of each group.
    pub fn print_largest(&self) {
        println!("{:<45} {:>8}{:6} {:>8}", format!("largest; the target is {TARGET:.2}"), "ratio", "", "worst");
        let mark = |ratio| if ratio > TARGET { " above" } else { "" };
        for (group, rows) in self.groups() {
            let largest = rows.iter().map(|row| row.largest().ratio()).fold(0.0, f64::max);
            let worst = rows.iter().map(|row| row.worst().worst).fold(0.0, f64::max);
            println!("  {group:<43} {largest:>8.2}{:6} {worst:>8.2}{}", mark(largest), mark(worst));
        }
    }
}

/// Prints the rows of several programs in one table. A file is one run, and named by its program up to the first dot.
pub fn table(files: &[&str]) {
    let mut rows = Rows::default();
    for file in files {
        let name = std::path::Path::new(file).file_name().and_then(|name| name.to_str()).unwrap_or(file);
        rows.read(name.split('.').next().unwrap_or(name), file);
    }
    println!("{}\n", machine::line());
    rows.print();
    println!();
    rows.print_largest();
}
