//! Two figures for many measurements, and tables of them and of plain numbers.

/// The median and the worst.
pub struct Figures {
    median: f64,
    worst: f64,
}

impl Figures {
    pub fn of(mut measured: Vec<f64>) -> Figures {
        measured.sort_by(f64::total_cmp);
        Figures {
            median: measured[measured.len() / 2],
            worst: *measured.last().expect("something was measured"),
        }
    }
}

pub fn print_header<'a>(rows: &str, columns: impl Iterator<Item = &'a str>) {
    let columns: String = columns.map(|title| format!("{title:>20}")).collect();
    println!("{rows:<22}{columns}");
}

/// With as many decimals for every figure. What could not be measured is not installed.
pub fn print_row(name: &str, figures: impl Iterator<Item = Option<Figures>>, decimals: usize) {
    print!("{name:<22}");
    for figures in figures {
        match figures {
            Some(Figures { median, worst }) => {
                print!("{median:>10.decimals$}{worst:>10.decimals$}");
            }
            None => print!("{:>20}", "not installed"),
        }
    }
    println!();
}

/// One number below each title.
pub fn print_numbers(name: &str, numbers: impl Iterator<Item = usize>) {
    let numbers: String = numbers.map(|number| format!("{number:>20}")).collect();
    println!("{name:<22}{numbers}");
}
