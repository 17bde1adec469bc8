//! Rows of Markdown tables, and what is asked of them.

/// The medians in µs of a call: plain, proved, a copy of what it works on.
pub type Times = [f64; 3];

/// What the proved version may cost at most.
#[derive(Clone, Copy)]
pub struct Limit {
    times_plain: Option<f64>,
    copies: Option<f64>,
    milliseconds: Option<f64>,
}

impl Limit {
    pub fn none() -> Limit {
        Limit { times_plain: None, copies: None, milliseconds: None }
    }

    pub fn plain(times: f64) -> Limit {
        Limit { times_plain: Some(times), ..Limit::none() }
    }

    pub fn copies(self, copies: f64) -> Limit {
        Limit { copies: Some(copies), ..self }
    }

    pub fn milliseconds(self, milliseconds: f64) -> Limit {
        Limit { milliseconds: Some(milliseconds), ..self }
    }

    /// The limits, each that does not hold in bold.
    fn shown(&self, [plain, proved, copy]: Times) -> String {
        let asked = [
            (self.times_plain, proved / plain, " plain"),
            (self.copies, proved / copy, " copies"),
            (self.milliseconds, proved / 1000.0, " ms"),
        ];
        let shown = asked.iter().filter_map(|(limit, is, of)| {
            let limit = (*limit)?;
            Some(if *is <= limit { format!("{limit}{of}") } else { format!("**{limit}{of}**") })
        });
        shown.collect::<Vec<_>>().join(", ")
    }
}

/// Three digits that count.
fn digits(number: f64) -> String {
    match number {
        n if n >= 100.0 => format!("{n:.0}"),
        n if n >= 10.0 => format!("{n:.1}"),
        n => format!("{n:.2}"),
    }
}

pub fn head(what: &str, copied: &str) {
    println!("| {what} | serials | plain µs | proved µs | {copied} µs | proved / plain | proved / copy | at most |");
    println!("|---|---|---:|---:|---:|---:|---:|---|");
}

pub fn row(what: &str, serials: &str, times: Times, limit: Limit) {
    let [plain, proved, copy] = times;
    let (by_plain, by_copy) = (proved / plain, proved / copy);
    println!(
        "| {what} | {serials} | {} | {} | {} | {by_plain:.2} | {by_copy:.1} | {} |",
        digits(plain),
        digits(proved),
        digits(copy),
        limit.shown(times)
    );
}

pub fn growth_head() {
    println!("| call | 256 | 512 | 1,024 | 2,048 | 4,080 | greatest step |");
    println!("|---|---:|---:|---:|---:|---:|---:|");
}

/// Times by doubling size, the last at 4,080 darts. A step above 2 is in bold.
pub fn growth_row(what: &str, times: &[f64]) {
    let missing = std::iter::repeat_n(String::new(), 5 - times.len());
    let cells: Vec<String> = missing.chain(times.iter().map(|time| digits(*time))).collect();
    let step = times.windows(2).map(|pair| pair[1] / pair[0]).fold(0.0, f64::max);
    let step = if step <= 2.0 { format!("{step:.2}") } else { format!("**{step:.2}**") };
    println!("| {what} | {} | {step} |", cells.join(" | "));
}
